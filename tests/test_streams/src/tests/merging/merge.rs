use super::always::Always;
use futures_lite::{Context, Poll, StreamExt, future, stream};
use std::sync::atomic::AtomicU64;
use std::sync::atomic::Ordering::SeqCst;
use std::test::Fail;
use test_support::{answers, firm, item, polled};

#[test]
fn a_clone_of_a_zip_goes_on_from_where_it_is(rt: HostRuntime) -> Result<(), Fail> {
    let mut pairs = stream::iter(1u8..4).zip(stream::iter(4u8..8));
    let got = answers(&rt, &mut pairs, 1)?;
    assert_eq!(rt; got.as_slice(), [item((1, 4))].as_slice());
    let got = answers(&rt, &mut pairs.clone()?, 3)?;
    let expected = [item((2, 5)), item((3, 6)), Poll::Ready(None)];
    assert_eq!(rt; got.as_slice(), expected.as_slice());
    Ok(())
}

#[test]
fn zip_polls_the_first_before_the_second(rt: HostRuntime) -> Result<(), Fail> {
    let polls = AtomicU64::new(0);
    let first = stream::poll_fn(|_cx: &mut Context<'_>| item(polls.fetch_add(1, SeqCst)));
    let second = stream::poll_fn(|_cx: &mut Context<'_>| item(polls.fetch_add(1, SeqCst)));
    let got = answers(&rt, &mut first.zip(second), 2)?;
    assert_eq!(rt; got.as_slice(), [item((0, 1)), item((2, 3))].as_slice());
    Ok(())
}

#[test]
fn or_polls_nothing_once_both_have_ended(rt: HostRuntime) -> Result<(), Fail> {
    let mut first = stream::script(vec![in rt.alloc(); item(1u8), Poll::Ready(None), item(5)]?);
    let mut second = stream::script(vec![in rt.alloc(); item(2u8), Poll::Ready(None), item(6)]?);
    let got = answers(&rt, &mut (&mut first).or(&mut second), 5)?;
    let expected = [
        item(1),
        item(2),
        Poll::Ready(None),
        Poll::Ready(None),
        Poll::Ready(None),
    ];
    assert_eq!(rt; got.as_slice(), expected.as_slice());
    assert_eq!(rt;
        answers(&rt, &mut first, 1)?.as_slice(),
        [item(5)].as_slice()
    );
    assert_eq!(rt;
        answers(&rt, &mut second, 1)?.as_slice(),
        [item(6)].as_slice()
    );
    Ok(())
}

#[test]
fn or_leaves_the_first_stream_behind_its_end(rt: HostRuntime) -> Result<(), Fail> {
    let mut first = stream::script(vec![in rt.alloc(); Poll::Ready(None), item(5u8)]?);
    let list = vec![in rt.alloc(); Poll::Pending, Poll::Pending, Poll::Ready(None)]?;
    let got = answers(&rt, &mut (&mut first).or(stream::script(list)), 4)?;
    let expected = [
        Poll::Pending,
        Poll::Pending,
        Poll::Ready(None),
        Poll::Ready(None),
    ];
    assert_eq!(rt; got.as_slice(), expected.as_slice());
    assert_eq!(rt;
        answers(&rt, &mut first, 1)?.as_slice(),
        [item(5)].as_slice()
    );
    Ok(())
}

#[test]
fn a_stream_that_ends_leaves_neither_future_nor_result(rt: HostRuntime) -> Result<(), Fail> {
    let none = stream::iter(Vec::<u8>::new(rt.alloc()));
    let mut ended = stream::stop_after_future(none, future::pending::<()>());
    let got = answers(&rt, &mut ended, 1)?;
    assert_eq!(rt; got.as_slice(), [Poll::Ready(None)].as_slice());
    assert!(rt; ended.is_stopped());
    assert!(rt; ended.take_future().is_none());
    assert_eq!(rt; ended.take_result(), None);
    Ok(())
}

#[test]
fn a_stream_whose_future_was_taken_out_is_never_stopped(rt: HostRuntime) -> Result<(), Fail> {
    let mut numbers = stream::stop_after_future(stream::iter(1u8..4), future::pending::<()>());
    let got = answers(&rt, &mut numbers, 1)?;
    assert_eq!(rt; got.as_slice(), [item(1)].as_slice());
    assert!(rt; numbers.take_future().is_some());
    assert!(rt; numbers.take_future().is_none());
    assert!(rt; !numbers.is_stopped());
    let got = answers(&rt, &mut numbers, 3)?;
    let expected = [item(2), item(3), Poll::Ready(None)];
    assert_eq!(rt; got.as_slice(), expected.as_slice());
    assert!(rt; !numbers.is_stopped());
    Ok(())
}

#[test]
fn race_polls_no_stream_that_has_ended(rt: HostRuntime) -> Result<(), Fail> {
    for word in 0..2u32 {
        let mut first = stream::script(vec![in rt.alloc(); Poll::Ready(None), item(5u8)]?);
        let second = stream::script(vec![in rt.alloc(); Poll::Pending, Poll::Ready(None)]?);
        let got = answers(
            &rt,
            &mut firm((&mut first).race(second, Always { word })),
            3,
        )?;
        let expected = [Poll::Pending, Poll::Ready(None), Poll::Ready(None)];
        assert_eq!(rt; got.as_slice(), expected.as_slice());
        assert_eq!(rt;
            answers(&rt, &mut first, 1)?.as_slice(),
            [item(5)].as_slice()
        );
    }
    Ok(())
}

#[test]
fn a_seeded_race_gives_each_item_once(rt: HostRuntime) -> Result<(), Fail> {
    let race = stream::race_with_seed(stream::iter(0u8..3), stream::iter(0u8..3), 0x42);
    let got = polled(&rt, &mut race.count(), 1)?;
    assert_eq!(rt; got.as_slice(), [Poll::Ready(6)].as_slice());
    Ok(())
}

#[test]
fn a_stream_stops_once_its_future_is_done(rt: HostRuntime) -> Result<(), Fail> {
    let mut polls = 0u8;
    let stop = future::poll_fn(move |_cx: &mut Context<'_>| {
        polls = polls.saturating_add(1);
        if polls > 5 {
            Poll::Ready(())
        } else {
            Poll::Pending
        }
    });
    let mut numbers = stream::stop_after_future(stream::iter(1u8..11), stop);
    let got: Vec<u8> = future::block_on(&rt, (&mut numbers).collect(rt.alloc()))??;
    assert_eq!(rt; got.as_slice(), [1, 2, 3, 4, 5].as_slice());
    assert!(rt; numbers.is_stopped());
    assert_eq!(rt; numbers.take_result(), Some(()));
    assert_eq!(rt; numbers.take_result(), None);
    Ok(())
}
