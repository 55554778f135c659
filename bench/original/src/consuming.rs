//! Futures that consume a stream of the numbers below `n`.

use crate::polled::with_item;
use futures_lite::{future, stream, StreamExt};
use std::future::Future;
use std::pin::pin;
use std::task::{Context, Poll};

/// What the case of this name computes at size `n`, if it is a case of this file.
pub fn computed(cx: &mut Context<'_>, name: &str, n: u64) -> Option<u64> {
    Some(match name {
        "last" => last(cx, n),
        "nth" => nth(cx, n),
        "any" => any(cx, n),
        "position" => position(cx, n),
        "find_map" => find_map(cx, n),
        "for_each" => for_each(cx, n),
        "try_for_each" => try_for_each(cx, n),
        "try_fold" => try_fold(cx, n),
        "try_next" => try_next(cx, n, n),
        "try_collect" => try_collect(cx, n),
        "partition" => partition(cx, n),
        "unzip" => unzip(cx, n),
        "next" => next(cx, n, n),
        "count" => count(cx, n),
        "fold" => fold(cx, n),
        "find" => find(cx, n),
        "all" => all(cx, n),
        "collect" => collect(cx, n),
        "blocking_next" | "held_next" => blocking_next(n, n),
        "waits_next" => waits_next(n, n),
        _ => return None,
    })
}

#[inline(never)]
pub fn next(cx: &mut Context<'_>, n: u64, polls: u64) -> u64 {
    let mut numbers = stream::iter(0..n).map(|x: u64| x ^ 5);
    let mut sum = 0u64;
    for _ in 0..polls {
        let Poll::Ready(Some(x)) = pin!(numbers.next()).poll(cx) else {
            break;
        };
        sum = with_item(sum, x);
    }
    sum
}

/// As `next`, with a wait for each item.
#[inline(never)]
pub fn blocking_next(n: u64, waits: u64) -> u64 {
    let mut numbers = stream::block_on(stream::iter(0..n).map(|x: u64| x ^ 5));
    let mut sum = 0u64;
    for _ in 0..waits {
        let Some(x) = numbers.next() else {
            break;
        };
        sum = with_item(sum, x);
    }
    sum
}

/// As `next`, with a `block_on` for each item.
#[inline(never)]
pub fn waits_next(n: u64, waits: u64) -> u64 {
    let mut numbers = stream::iter(0..n).map(|x: u64| x ^ 5);
    let mut sum = 0u64;
    for _ in 0..waits {
        let Some(x) = future::block_on(numbers.next()) else {
            break;
        };
        sum = with_item(sum, x);
    }
    sum
}

#[inline(never)]
pub fn count(cx: &mut Context<'_>, n: u64) -> u64 {
    match pin!(stream::iter(0..n).filter(|x: &u64| *x & 3 != 0).count()).poll(cx) {
        Poll::Ready(count) => count as u64,
        Poll::Pending => 0,
    }
}

#[inline(never)]
pub fn fold(cx: &mut Context<'_>, n: u64) -> u64 {
    match pin!(stream::iter(0..n).fold(0u64, with_item)).poll(cx) {
        Poll::Ready(sum) => sum,
        Poll::Pending => 0,
    }
}

/// A search for a number that is not there.
#[inline(never)]
pub fn find(cx: &mut Context<'_>, n: u64) -> u64 {
    match pin!(stream::iter(0..n).find(|x: &u64| x.wrapping_mul(*x) ^ (*x >> 3) == u64::MAX)).poll(cx) {
        Poll::Ready(Some(x)) => x,
        Poll::Ready(None) => n,
        Poll::Pending => 0,
    }
}

#[inline(never)]
pub fn all(cx: &mut Context<'_>, n: u64) -> u64 {
    match pin!(stream::iter(0..n).all(|x: u64| x ^ 0x5555 != u64::MAX)).poll(cx) {
        Poll::Ready(all) => all as u64,
        Poll::Pending => 0,
    }
}

/// A vector of the numbers, and then its items.
#[inline(never)]
pub fn collect(cx: &mut Context<'_>, n: u64) -> u64 {
    match pin!(stream::iter(0..n).collect::<Vec<u64>>()).poll(cx) {
        Poll::Ready(numbers) => sum_of(&numbers),
        Poll::Pending => 0,
    }
}

/// The last of the sums up to each number, so that no compiler leaves numbers out.
#[inline(never)]
pub fn last(cx: &mut Context<'_>, n: u64) -> u64 {
    let sums = stream::iter(0..n).scan(0u64, |sum: &mut u64, x: u64| {
        *sum = with_item(*sum, x);
        Some(*sum)
    });
    match pin!(sums.last()).poll(cx) {
        Poll::Ready(Some(x)) => x,
        Poll::Ready(None) | Poll::Pending => 0,
    }
}

/// The last number.
#[inline(never)]
pub fn nth(cx: &mut Context<'_>, n: u64) -> u64 {
    match pin!(stream::iter(0..n).nth((n as usize).saturating_sub(1))).poll(cx) {
        Poll::Ready(Some(x)) => x,
        Poll::Ready(None) | Poll::Pending => 0,
    }
}

#[inline(never)]
pub fn any(cx: &mut Context<'_>, n: u64) -> u64 {
    match pin!(stream::iter(0..n).any(|x: u64| x ^ 0x5555 == u64::MAX)).poll(cx) {
        Poll::Ready(any) => any as u64,
        Poll::Pending => 1,
    }
}

/// As `find`, for its place.
#[inline(never)]
pub fn position(cx: &mut Context<'_>, n: u64) -> u64 {
    match pin!(stream::iter(0..n).position(|x: u64| x.wrapping_mul(x) ^ (x >> 3) == u64::MAX)).poll(cx) {
        Poll::Ready(Some(i)) => i as u64,
        Poll::Ready(None) => n,
        Poll::Pending => 0,
    }
}

/// As `find`, for what is made of it.
#[inline(never)]
pub fn find_map(cx: &mut Context<'_>, n: u64) -> u64 {
    let found = |x: u64| if x.wrapping_mul(x) ^ (x >> 3) == u64::MAX { Some(x) } else { None };
    match pin!(stream::iter(0..n).find_map(found)).poll(cx) {
        Poll::Ready(Some(x)) => x,
        Poll::Ready(None) => n,
        Poll::Pending => 0,
    }
}

#[inline(never)]
pub fn for_each(cx: &mut Context<'_>, n: u64) -> u64 {
    let mut sum = 0u64;
    match pin!(stream::iter(0..n).for_each(|x: u64| sum = with_item(sum, x))).poll(cx) {
        Poll::Ready(()) => sum,
        Poll::Pending => 0,
    }
}

#[inline(never)]
pub fn try_for_each(cx: &mut Context<'_>, n: u64) -> u64 {
    let mut sum = 0u64;
    let done = pin!(stream::iter(0..n).try_for_each(|x: u64| {
        sum = with_item(sum, x);
        Ok::<(), ()>(())
    }))
    .poll(cx);
    match done {
        Poll::Ready(Ok(())) => sum,
        Poll::Ready(Err(())) | Poll::Pending => 0,
    }
}

#[inline(never)]
pub fn try_fold(cx: &mut Context<'_>, n: u64) -> u64 {
    let mut numbers = stream::iter(0..n).map(Ok::<u64, ()>);
    match pin!(numbers.try_fold(0u64, |sum: u64, x: u64| Ok::<u64, ()>(with_item(sum, x)))).poll(cx) {
        Poll::Ready(Ok(sum)) => sum,
        Poll::Ready(Err(())) | Poll::Pending => 0,
    }
}

/// As `next`, of results.
#[inline(never)]
pub fn try_next(cx: &mut Context<'_>, n: u64, polls: u64) -> u64 {
    let mut numbers = stream::iter(0..n).map(|x: u64| Ok::<u64, ()>(x ^ 5));
    let mut sum = 0u64;
    for _ in 0..polls {
        let Poll::Ready(Ok(Some(x))) = pin!(numbers.try_next()).poll(cx) else {
            break;
        };
        sum = with_item(sum, x);
    }
    sum
}

fn sum_of(numbers: &[u64]) -> u64 {
    numbers.iter().fold(0, |sum: u64, x: &u64| with_item(sum, *x))
}

/// As `collect`, of results.
#[inline(never)]
pub fn try_collect(cx: &mut Context<'_>, n: u64) -> u64 {
    match pin!(stream::iter(0..n).map(Ok::<u64, ()>).try_collect::<u64, (), Vec<u64>>()).poll(cx) {
        Poll::Ready(Ok(numbers)) => sum_of(&numbers),
        Poll::Ready(Err(())) | Poll::Pending => 0,
    }
}

/// The even numbers and the odd ones.
#[inline(never)]
pub fn partition(cx: &mut Context<'_>, n: u64) -> u64 {
    match pin!(stream::iter(0..n).partition::<Vec<u64>, _>(|x: &u64| *x & 1 == 0)).poll(cx) {
        Poll::Ready((even, odd)) => sum_of(&even) ^ sum_of(&odd),
        Poll::Pending => 0,
    }
}

/// The numbers, and what is made of them.
#[inline(never)]
pub fn unzip(cx: &mut Context<'_>, n: u64) -> u64 {
    match pin!(stream::iter(0..n).map(|x: u64| (x, x ^ 5)).unzip::<u64, u64, Vec<u64>, Vec<u64>>()).poll(cx) {
        Poll::Ready((first, second)) => sum_of(&first) ^ sum_of(&second),
        Poll::Pending => 0,
    }
}
