use futures_lite::future::{self, BlockOn};
use futures_lite::stream;
use std::alloc::AllocError;
use std::cell::Cell;
use std::test::Fail;
use test_support::Refusing;

#[test]
fn next_waits_for_each_item(rt: HostRuntime) -> Result<(), Fail> {
    let mut seven = stream::block_on(rt, stream::once(7u8));
    assert_eq!(rt; seven.size_hint(), (1, Some(1)));
    assert_eq!(rt; seven.next(), Ok(Some(7)));
    assert_eq!(rt; seven.next(), Ok(None));
    Ok(())
}

#[test]
fn streams_take_turns_at_one_waits(rt: HostRuntime) -> Result<(), Fail> {
    let mut on = BlockOn::new(&rt)?;
    let mut waits = on.waits();
    let mut one = stream::once_future(future::yield_now());
    assert_eq!(rt;
        stream::block_on_by(&mut waits, rt, &mut one).next(),
        Ok(Some(()))
    );
    let numbers = stream::block_on_by(&mut waits, rt, stream::iter(1u8..4));
    assert_eq!(rt; numbers.count(), Ok(3));
    assert_eq!(rt;
        stream::block_on_by(&mut waits, rt, &mut one).next(),
        Ok(None)
    );
    Ok(())
}

#[test]
fn a_blocking_stream_shows_its_stream(rt: HostRuntime) -> Result<(), Fail> {
    let seven = stream::block_on(rt, stream::once(7u8));
    let shown = format!(in rt.alloc(); "{seven:?}")?;
    assert_eq!(rt; shown.as_str(), "BlockOn(Once { value: Some(7) })");
    Ok(())
}

#[test]
fn what_ends_at_the_end_takes_the_stream(rt: HostRuntime) -> Result<(), Fail> {
    assert_eq!(rt; stream::block_on(rt, stream::iter(1u8..4)).count(), Ok(3));
    assert_eq!(rt;
        stream::block_on(rt, stream::iter(1u8..4)).last(),
        Ok(Some(3))
    );
    let sum = stream::block_on(rt, stream::iter(1u8..4)).fold(
        0u8,
        |a: u8, x: u8| a.wrapping_add(x),
    );
    assert_eq!(rt; sum, Ok(6));
    let sum = Cell::new(0u8);
    let called = stream::block_on(rt, stream::iter(1u8..4)).for_each(|x: u8| {
        sum.set(sum.get().wrapping_add(x));
    });
    assert_eq!(rt; called, Ok(()));
    assert_eq!(rt; sum.get(), 6);
    Ok(())
}

#[test]
fn what_stops_at_an_item_leaves_the_rest(rt: HostRuntime) -> Result<(), Fail> {
    let mut numbers = stream::block_on(rt, stream::iter(1u8..4));
    assert_eq!(rt; numbers.nth(1), Ok(Some(2)));
    assert_eq!(rt; numbers.next(), Ok(Some(3)));
    let mut numbers = stream::block_on(rt, stream::iter(1u8..4));
    assert_eq!(rt; numbers.nth(usize::MAX), Ok(None));
    assert_eq!(rt; numbers.next(), Ok(None));
    let mut numbers = stream::block_on(rt, stream::iter(1u8..4));
    assert_eq!(rt; numbers.find(|x: &u8| *x == 2), Ok(Some(2)));
    assert_eq!(rt; numbers.next(), Ok(Some(3)));
    let mut numbers = stream::block_on(rt, stream::iter(1u8..4));
    assert_eq!(rt;
        numbers.find_map(|x: u8| if x == 2 { Some(x) } else { None }),
        Ok(Some(2))
    );
    assert_eq!(rt; numbers.next(), Ok(Some(3)));
    let mut numbers = stream::block_on(rt, stream::iter(1u8..4));
    assert_eq!(rt; numbers.position(|x: u8| x == 2), Ok(Some(1)));
    assert_eq!(rt; numbers.next(), Ok(Some(3)));
    let mut numbers = stream::block_on(rt, stream::iter(1u8..4));
    assert_eq!(rt; numbers.all(|x: u8| x > 0), Ok(true));
    let mut numbers = stream::block_on(rt, stream::iter(1u8..4));
    assert_eq!(rt; numbers.any(|x: u8| x > 0), Ok(true));
    assert_eq!(rt; numbers.next(), Ok(Some(2)));
    Ok(())
}

#[test]
fn a_refused_wait_for_the_end_polls_nothing(rt: HostRuntime) -> Result<(), Fail> {
    let mut numbers = stream::iter(1u8..4);
    let count = stream::block_on(Refusing { rt }, &mut numbers).count();
    assert_eq!(rt; count, Err(AllocError));
    let last = stream::block_on(Refusing { rt }, &mut numbers).last();
    assert_eq!(rt; last, Err(AllocError));
    let calls = Cell::new(0u8);
    let sum = stream::block_on(Refusing { rt }, &mut numbers).fold(0u8, |a: u8, x: u8| {
        calls.set(calls.get().wrapping_add(1));
        a.wrapping_add(x)
    });
    assert_eq!(rt; sum, Err(AllocError));
    let called = stream::block_on(Refusing { rt }, &mut numbers).for_each(|_x: u8| {
        calls.set(calls.get().wrapping_add(1));
    });
    assert_eq!(rt; called, Err(AllocError));
    assert_eq!(rt; calls.get(), 0);
    // Each poll of the stream would have taken an item.
    assert_eq!(rt; stream::block_on(rt, &mut numbers).count(), Ok(3));
    Ok(())
}
