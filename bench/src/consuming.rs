//! Futures that consume a stream of the numbers below `n`.

use crate::fault::Fault;
use crate::polled::with_item;
use futures_lite::future::BlockOn;
use futures_lite::{Context, Future, Poll, StreamExt, stream};
use std::alloc::{AllocError, AllocGlobal, Global};
use std::random::RandomSource;
use std::sync::Wait;

/// What the case of this name computes at size `n`, if it is a case of this file.
pub(crate) fn computed(
    alloc: Global,
    cx: &mut Context<'_>,
    name: &str,
    n: u64,
) -> Result<Option<u64>, Fault> {
    Ok(Some(match name {
        "next" => next(cx, n, n),
        "last" => last(cx, n),
        "nth" => nth(cx, n),
        "any" => any(cx, n),
        "position" => position(cx, n),
        "find_map" => find_map(cx, n),
        "for_each" => for_each(cx, n),
        "try_for_each" => try_for_each(cx, n),
        "try_fold" => try_fold(cx, n),
        "try_next" => try_next(cx, n, n),
        "try_collect" => try_collect(alloc, cx, n)?,
        "partition" => partition(alloc, cx, n)?,
        "unzip" => unzip(alloc, cx, n)?,
        "count" => count(cx, n),
        "fold" => fold(cx, n),
        "find" => find(cx, n),
        "all" => all(cx, n),
        "collect" => collect(alloc, cx, n)?,
        _ => return Ok(None),
    }))
}

/// Cases of this file, their sizes, and the items that they fold.
pub(crate) const FOLDS: &[(&str, u64, &[u64])] = &[
    ("next", 4, &[5, 4, 7, 6]),
    ("for_each", 4, &[0, 1, 2, 3]),
    ("try_for_each", 4, &[0, 1, 2, 3]),
    ("try_fold", 4, &[0, 1, 2, 3]),
    ("try_next", 4, &[5, 4, 7, 6]),
    ("try_collect", 4, &[0, 1, 2, 3]),
    ("fold", 4, &[0, 1, 2, 3]),
    ("collect", 4, &[0, 1, 2, 3]),
];

#[inline(never)]
pub(crate) fn next(cx: &mut Context<'_>, n: u64, polls: u64) -> u64 {
    let mut numbers = stream::iter(0..n).map(|x: u64| x ^ 5);
    let mut sum = 0u64;
    for _ in 0..polls {
        let Poll::Ready(Some(x)) = numbers.next().poll(cx) else {
            break;
        };
        sum = with_item(sum, x);
    }
    sum
}

/// As `next`, with a wait for each item.
#[inline(never)]
pub(crate) fn held_next<R>(rt: R, n: u64, waits: u64) -> Result<u64, AllocError>
where
    R: Wait + RandomSource + AllocGlobal + Copy,
{
    let mut numbers = stream::block_on(rt, stream::iter(0..n).map(|x: u64| x ^ 5));
    let mut sum = 0u64;
    for _ in 0..waits {
        let Some(x) = numbers.next()? else {
            break;
        };
        sum = with_item(sum, x);
    }
    Ok(sum)
}

/// As `held_next`, with one context for all waits.
#[inline(never)]
pub(crate) fn blocking_next<R>(rt: R, n: u64, waits: u64) -> Result<u64, AllocError>
where
    R: Wait + RandomSource + AllocGlobal + Copy,
{
    let mut on = BlockOn::new(&rt)?;
    let mut waiting = on.waits();
    let given = stream::iter(0..n).map(|x: u64| x ^ 5);
    let mut numbers = stream::block_on_by(&mut waiting, rt, given);
    let mut sum = 0u64;
    for _ in 0..waits {
        let Some(x) = numbers.next()? else {
            break;
        };
        sum = with_item(sum, x);
    }
    Ok(sum)
}

/// As `blocking_next`, with a future for each wait.
#[inline(never)]
pub(crate) fn waits_next<R>(rt: &R, n: u64, waits: u64) -> Result<u64, AllocError>
where
    R: Wait + RandomSource + AllocGlobal,
{
    let mut numbers = stream::iter(0..n).map(|x: u64| x ^ 5);
    let mut on = BlockOn::new(rt)?;
    let mut waiting = on.waits();
    let mut sum = 0u64;
    for _ in 0..waits {
        let Some(x) = waiting.wait_for(rt, &mut numbers.next()) else {
            break;
        };
        sum = with_item(sum, x);
    }
    Ok(sum)
}

#[inline(never)]
pub(crate) fn count(cx: &mut Context<'_>, n: u64) -> u64 {
    match stream::iter(0..n)
        .filter(|x: &u64| *x & 3 != 0)
        .count()
        .poll(cx)
    {
        Poll::Ready(count) => count as u64,
        Poll::Pending => 0,
    }
}

#[inline(never)]
pub(crate) fn fold(cx: &mut Context<'_>, n: u64) -> u64 {
    match stream::iter(0..n)
        .fold(0u64, |sum: u64, x: u64| with_item(sum, x))
        .poll(cx)
    {
        Poll::Ready(sum) => sum,
        Poll::Pending => 0,
    }
}

/// A search for a number that is not there.
#[inline(never)]
pub(crate) fn find(cx: &mut Context<'_>, n: u64) -> u64 {
    match stream::iter(0..n)
        .find(|x: &u64| x.wrapping_mul(*x) ^ (*x >> 3) == u64::MAX)
        .poll(cx)
    {
        Poll::Ready(Some(x)) => x,
        Poll::Ready(None) => n,
        Poll::Pending => 0,
    }
}

#[inline(never)]
pub(crate) fn all(cx: &mut Context<'_>, n: u64) -> u64 {
    match stream::iter(0..n)
        .all(|x: u64| x ^ 0x5555 != u64::MAX)
        .poll(cx)
    {
        Poll::Ready(all) => all as u64,
        Poll::Pending => 0,
    }
}

/// A vector of the numbers, and then its items.
#[inline(never)]
pub(crate) fn collect(alloc: Global, cx: &mut Context<'_>, n: u64) -> Result<u64, Fault> {
    let mut vector = stream::iter(0..n).collect::<Vec<u64>>(alloc);
    match vector.poll(cx) {
        Poll::Ready(Ok(numbers)) => Ok(sum_of(&numbers)),
        Poll::Ready(Err(_refused)) => Err(Fault::Memory),
        Poll::Pending => Ok(0),
    }
}

/// The last of the sums up to each number, so that no compiler leaves numbers out.
#[inline(never)]
pub(crate) fn last(cx: &mut Context<'_>, n: u64) -> u64 {
    let sums = stream::iter(0..n).scan(0u64, |sum: &mut u64, x: u64| {
        *sum = with_item(*sum, x);
        Some(*sum)
    });
    match sums.last().poll(cx) {
        Poll::Ready(Some(x)) => x,
        Poll::Ready(None) | Poll::Pending => 0,
    }
}

/// The last number.
#[inline(never)]
pub(crate) fn nth(cx: &mut Context<'_>, n: u64) -> u64 {
    match stream::iter(0..n).nth((n as usize).saturating_sub(1)).poll(cx) {
        Poll::Ready(Some(x)) => x,
        Poll::Ready(None) | Poll::Pending => 0,
    }
}

#[inline(never)]
pub(crate) fn any(cx: &mut Context<'_>, n: u64) -> u64 {
    match stream::iter(0..n)
        .any(|x: u64| x ^ 0x5555 == u64::MAX)
        .poll(cx)
    {
        Poll::Ready(any) => any as u64,
        Poll::Pending => 1,
    }
}

/// As `find`, for its place.
#[inline(never)]
pub(crate) fn position(cx: &mut Context<'_>, n: u64) -> u64 {
    match stream::iter(0..n)
        .position(|x: u64| x.wrapping_mul(x) ^ (x >> 3) == u64::MAX)
        .poll(cx)
    {
        Poll::Ready(Some(i)) => i as u64,
        Poll::Ready(None) => n,
        Poll::Pending => 0,
    }
}

/// As `find`, for what is made of it.
#[inline(never)]
pub(crate) fn find_map(cx: &mut Context<'_>, n: u64) -> u64 {
    match stream::iter(0..n)
        .find_map(|x: u64| if x.wrapping_mul(x) ^ (x >> 3) == u64::MAX {
            Some(x)
        } else {
            None
        })
        .poll(cx)
    {
        Poll::Ready(Some(x)) => x,
        Poll::Ready(None) => n,
        Poll::Pending => 0,
    }
}

#[inline(never)]
pub(crate) fn for_each(cx: &mut Context<'_>, n: u64) -> u64 {
    let mut sum = 0u64;
    let done = stream::iter(0..n)
        .for_each(|x: u64| sum = with_item(sum, x))
        .poll(cx);
    match done {
        Poll::Ready(()) => sum,
        Poll::Pending => 0,
    }
}

#[inline(never)]
pub(crate) fn try_for_each(cx: &mut Context<'_>, n: u64) -> u64 {
    let mut sum = 0u64;
    let done = stream::iter(0..n)
        .try_for_each(|x: u64| {
            sum = with_item(sum, x);
            Ok::<(), Fault>(())
        })
        .poll(cx);
    match done {
        Poll::Ready(Ok(())) => sum,
        Poll::Ready(Err(_)) | Poll::Pending => 0,
    }
}

#[inline(never)]
pub(crate) fn try_fold(cx: &mut Context<'_>, n: u64) -> u64 {
    let mut numbers = stream::iter(0..n).map(|x: u64| Ok::<u64, Fault>(x));
    match numbers
        .try_fold(0u64, |sum: u64, x: u64| Ok::<u64, Fault>(with_item(sum, x)))
        .poll(cx)
    {
        Poll::Ready(Ok(sum)) => sum,
        Poll::Ready(Err(_)) | Poll::Pending => 0,
    }
}

/// As `next`, of results.
#[inline(never)]
pub(crate) fn try_next(cx: &mut Context<'_>, n: u64, polls: u64) -> u64 {
    let mut numbers = stream::iter(0..n).map(|x: u64| Ok::<u64, Fault>(x ^ 5));
    let mut sum = 0u64;
    for _ in 0..polls {
        let Poll::Ready(Ok(Some(x))) = numbers.try_next().poll(cx) else {
            break;
        };
        sum = with_item(sum, x);
    }
    sum
}

fn sum_of(numbers: &[u64]) -> u64 {
    numbers
        .iter()
        .fold(0, |sum: u64, x: &u64| with_item(sum, *x))
}

/// As `collect`, of results.
#[inline(never)]
pub(crate) fn try_collect(alloc: Global, cx: &mut Context<'_>, n: u64) -> Result<u64, Fault> {
    let results = stream::iter(0..n).map(|x: u64| Ok::<u64, Fault>(x));
    match results.try_collect::<u64, Fault, Vec<u64>>(alloc).poll(cx) {
        Poll::Ready(Ok(numbers)) => Ok(sum_of(&numbers)),
        Poll::Ready(Err(_refused)) => Err(Fault::Memory),
        Poll::Pending => Ok(0),
    }
}

/// The even numbers and the odd ones.
#[inline(never)]
pub(crate) fn partition(alloc: Global, cx: &mut Context<'_>, n: u64) -> Result<u64, Fault> {
    let mut parts = stream::iter(0..n).partition::<Vec<u64>, _>(alloc, |x: &u64| *x & 1 == 0);
    match parts.poll(cx) {
        Poll::Ready(Ok((even, odd))) => Ok(sum_of(&even) ^ sum_of(&odd)),
        Poll::Ready(Err(_refused)) => Err(Fault::Memory),
        Poll::Pending => Ok(0),
    }
}

/// The numbers, and what is made of them.
#[inline(never)]
pub(crate) fn unzip(alloc: Global, cx: &mut Context<'_>, n: u64) -> Result<u64, Fault> {
    let pairs = stream::iter(0..n).map(|x: u64| (x, x ^ 5));
    match pairs.unzip::<u64, u64, Vec<u64>, Vec<u64>>(alloc).poll(cx) {
        Poll::Ready(Ok((first, second))) => Ok(sum_of(&first) ^ sum_of(&second)),
        Poll::Ready(Err(_refused)) => Err(Fault::Memory),
        Poll::Pending => Ok(0),
    }
}
