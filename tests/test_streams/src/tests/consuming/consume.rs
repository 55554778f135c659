use crate::tests::properties::both_future;
use futures_lite::stream::{self, CollectFuture, PartitionFuture, TryCollectFuture, UnzipFuture};
use futures_lite::{Poll, StreamExt};
use std::test::Fail;
use test_support::polled;

#[test]
fn count_goes_over_a_long_nest_in_one_poll(rt: HostRuntime) -> Result<(), Fail> {
    let evens = stream::iter(0u32..1_000_000).filter(|x: &u32| *x % 2 == 0);
    let got = polled(&rt, &mut evens.count(), 1)?;
    assert_eq!(rt; got.as_slice(), [Poll::Ready(500_000)].as_slice());
    Ok(())
}

#[test]
fn futures_that_consume_are_steady_and_calm(_rt: HostRuntime) -> Result<(), Fail> {
    both_future(&stream::once(1u8).count());
    both_future(&stream::once(1u8).fold(0u8, |acc: u8, x: u8| acc ^ x));
    both_future(&stream::once(1u8).for_each(|_x: u8| ()));
    both_future(&stream::once(1u8).last());
    let mut once = stream::once(1u8);
    both_future(&once.next());
    both_future(&once.nth(1));
    both_future(&once.all(|x: u8| x == 1));
    both_future(&once.any(|x: u8| x == 1));
    both_future(&once.find(|x: &u8| *x == 1));
    both_future(&once.find_map(|x: u8| Some(x)));
    both_future(&once.position(|x: u8| x == 1));
    both_future(&once.try_for_each(|x: u8| if x == 1 { Ok(()) } else { Err('a') }));
    let good: Result<u8, char> = Ok(1);
    let mut tried = stream::once(good);
    both_future(&tried.try_next());
    both_future(&tried.try_fold(0u8, |acc: u8, x: u8| Ok(acc ^ x)));
    Ok(())
}

#[test]
fn collections_are_steady_and_calm(rt: HostRuntime) -> Result<(), Fail> {
    let good: Result<u8, char> = Ok(1);
    let items: CollectFuture<_, Vec<u8>> = stream::once(1u8).collect(rt.alloc());
    both_future(&items);
    let held: TryCollectFuture<_, Vec<u8>> = stream::once(good).try_collect(rt.alloc());
    both_future(&held);
    let accepted = |x: &u8| *x == 1;
    let sorted: PartitionFuture<_, _, Vec<u8>> = stream::once(1u8).partition(rt.alloc(), accepted);
    both_future(&sorted);
    let parts: UnzipFuture<_, Vec<u8>, Vec<char>> = stream::once((1u8, 'a')).unzip(rt.alloc());
    both_future(&parts);
    Ok(())
}
