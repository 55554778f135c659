//! Values of futures, and the calls of `Compat` itself.
use compat::{Compat, CompatExt, collect_from_kit, wait_from_kit};
use futures::FutureExt as _;
use futures::executor::block_on as block_on_there;
use futures_lite::future;
use futures_lite::future::BlockOn;
use std::test::Fail;
use test_support::shows;

#[test]
fn a_value_passes_both_ways(rt: HostRuntime) -> Result<(), Fail> {
    let there = futures::future::ready(7u8).map(|n: u8| n + 1);
    assert_eq!(rt; future::block_on(&rt, there.compat())?, 8);

    let here = future::zip(future::yield_now(), future::ready(9u8));
    assert_eq!(rt; block_on_there(&rt, here.compat())?, ((), 9));
    Ok(())
}

#[test]
fn a_value_goes_there_and_back(rt: HostRuntime) -> Result<(), Fail> {
    let here = future::zip(future::yield_now(), future::ready(9u8));
    assert_eq!(rt; future::block_on(&rt, here.compat().compat())?, ((), 9));

    let there = futures::future::ready(7u8);
    assert_eq!(rt; block_on_there(&rt, there.compat().compat())?, 7);
    Ok(())
}

#[test]
fn one_block_on_waits_for_many_futures(rt: HostRuntime) -> Result<(), Fail> {
    let mut on = BlockOn::new(&rt)?;
    for n in 0..3u8 {
        let both = futures::future::join(futures::future::ready(n), future::yield_now().compat());
        assert_eq!(rt; wait_from_kit(&mut on, &rt, both)?, (n, ()));
    }
    let many = futures::stream::iter(0u16..300);
    let all = collect_from_kit(&mut on, &rt, many)?;
    assert_eq!(rt; all.len(), 300);
    assert!(rt; all.iter().copied().eq(0u16..300));
    Ok(())
}

#[test]
fn what_is_wrapped_can_be_seen_and_taken_out(rt: HostRuntime) -> Result<(), Fail> {
    let mut wrapped = Compat::new(b"hello".as_slice());
    assert_eq!(rt; *wrapped.get_ref(), b"hello".as_slice());
    *wrapped.get_mut() = b"bye".as_slice();
    assert_eq!(rt; wrapped.into_inner(), b"bye".as_slice());
    assert!(rt; shows(&rt, &7u8.compat(), "Compat { inner: 7, .. }")?);
    Ok(())
}
