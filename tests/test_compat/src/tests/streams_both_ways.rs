//! Items of streams, their ends, and channels.
use super::error_of;
use compat::{CompatExt, stream_from_kit};
use futures::StreamExt as _;
use futures::channel::mpsc;
use futures::executor::block_on as block_on_there;
use futures::test::MockTask;
use futures_lite::{Poll, Stream, StreamExt, future, stream};
use std::alloc::AllocError;
use std::test::Fail;

#[test]
fn the_toolchain_collects_a_nest_of_this_library(rt: HostRuntime) -> Result<(), Fail> {
    let ours = stream::iter(0u8..5).map(|n: u8| n * 3).with_budget(2);
    let all = futures::StreamExt::collect(ours.compat(), rt.alloc());
    assert_eq!(rt;
        block_on_there(&rt, all)??.as_slice(),
        [0, 3, 6, 9, 12].as_slice()
    );
    Ok(())
}

#[test]
fn or_merges_two_channels(rt: HostRuntime) -> Result<(), Fail> {
    let alloc = rt.alloc();
    let (mut one, left) = mpsc::channel::<u32>(alloc, 4)?;
    let (mut two, right) = mpsc::channel::<u32>(alloc, 4)?;
    for n in 0..4u32 {
        assert_eq!(rt; error_of(alloc, &one.try_send(n))?.as_str(), "");
        assert_eq!(rt; error_of(alloc, &two.try_send(n + 10))?.as_str(), "");
    }
    drop(one);
    drop(two);
    let both = left.compat().or(right.compat()).with_budget(3);
    let all = future::block_on(&rt, both.collect::<Vec<u32>>(alloc))?.map_err(|_| AllocError)?;
    assert_eq!(rt; all.as_slice(), [0, 1, 2, 3, 10, 11, 12, 13].as_slice());
    Ok(())
}

// The channel is a sink of the toolchain, which `forward` fills and closes.
#[test]
fn a_nest_of_this_library_is_forwarded_into_a_channel(rt: HostRuntime) -> Result<(), Fail> {
    let alloc = rt.alloc();
    let (sender, receiver) = mpsc::channel::<u8>(alloc, 2)?;
    let sent = stream::iter(0u8..6)
        .filter(|n: &u8| *n % 2 == 0)
        .map(|n: u8| Ok(n));
    let forwarding = sent.compat().forward(sender);
    let all = receiver.compat().with_budget(8).collect::<Vec<u8>>(alloc);
    let (all, forwarded) = future::block_on(&rt, future::zip(all, forwarding.compat()))?;
    let all = all.map_err(|_| AllocError)?;
    assert_eq!(rt; error_of(alloc, &forwarded)?.as_str(), "");
    assert_eq!(rt; all.as_slice(), [0, 2, 4].as_slice());
    Ok(())
}

// A stream of the toolchain may not be polled after its end; this library's may.
#[test]
fn an_end_stays(rt: HostRuntime) -> Result<(), Fail> {
    let task = MockTask::new(&rt)?;
    let mut wrapped = stream_from_kit(futures::stream::iter(7u8..8));
    let first = task.enter(|cx| wrapped.poll_next(cx));
    assert_eq!(rt; first, Poll::Ready(Some(7)));
    for _ in 0..3u8 {
        let end = task.enter(|cx| wrapped.poll_next(cx));
        assert_eq!(rt; end, Poll::Ready(None));
    }
    assert_eq!(rt; wrapped.size_hint(), (0, None));
    Ok(())
}

#[test]
fn items_go_there_and_back(rt: HostRuntime) -> Result<(), Fail> {
    let alloc = rt.alloc();
    let here = stream::iter(0u8..3).compat().compat().with_budget(9);
    let all = future::block_on(&rt, here.collect::<Vec<u8>>(alloc))?.map_err(|_| AllocError)?;
    assert_eq!(rt; all.as_slice(), [0, 1, 2].as_slice());

    let there = futures::stream::iter(3u8..6).compat().compat();
    let all = block_on_there(&rt, futures::StreamExt::collect(there, alloc))??;
    assert_eq!(rt; all.as_slice(), [3, 4, 5].as_slice());
    Ok(())
}
