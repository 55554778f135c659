//! Sources and adapters. Each case goes over the numbers below `n`, or as many answers, unless it says otherwise.

use crate::fault::Fault;
use crate::polled::{fold_found, fold_items, fold_numbered, with_item};
use futures_lite::stream::script;
use futures_lite::{Context, Poll, Stream, StreamExt, future, stream};
use std::alloc::{AllocError, Global};

/// What the case of this name computes at size `n`, if it is a case of this file.
pub(crate) fn computed(
    alloc: Global,
    cx: &mut Context<'_>,
    name: &str,
    n: u64,
) -> Result<Option<u64>, Fault> {
    Ok(Some(match name {
        "iter" => iter(cx, n, n),
        "map" => map(cx, n, n),
        "filter" => filter(cx, n, n),
        "filter_map" => filter_map(cx, n, n),
        "skip" => skip(cx, n, n),
        "step_by" => step_by(cx, n, n),
        "take" => take(cx, n, n),
        "take_while" => take_while(cx, n, n),
        "map_while" => map_while(cx, n, n),
        "scan" => scan(cx, n, n),
        "enumerate" => enumerate(cx, n, n),
        "chain" => chain(cx, n, n),
        "chain_of_eight" => chain_of_eight(cx, n, n),
        "flat_map" => flat_map(cx, n, n),
        "then" => then(cx, n, n),
        "unfold" => unfold(cx, n, n),
        "nest" => nest(cx, n, n),
        "nest_of_eight" => nest_of_eight(cx, n, n),
        "joined" => joined(cx, n, n),
        "scripts" => scripts(alloc, cx, n)?,
        "skip_while" => skip_while(cx, n, n),
        "inspect" => inspect(cx, n, n),
        "fuse" => fuse(cx, n, n),
        "flatten" => flatten(cx, n, n),
        "made_numbers" => made_numbers(alloc, n)?,
        "copied" => copied(alloc, cx, n, n)?,
        "cloned" => cloned(alloc, cx, n, n)?,
        "repeat_with" => repeat_with(cx, n),
        "poll_fn" => poll_fn(cx, n, n),
        "once" => once(cx, n),
        "once_future" => once_future(cx, n),
        "repeat" => repeat(cx, n, n),
        "try_unfold" => try_unfold(cx, n, n),
        _ => return Ok(None),
    }))
}

/// Cases of this file, their sizes, and the items that they fold.
pub(crate) const FOLDS: &[(&str, u64, &[u64])] = &[
    ("iter", 4, &[0, 1, 2, 3]),
    ("map", 4, &[0, 3, 6, 9]),
    ("filter", 6, &[1, 2, 3, 5]),
    ("filter_map", 6, &[4, 7, 6, 0]),
    ("skip", 6, &[3, 4, 5]),
    ("step_by", 7, &[0, 3, 6]),
    ("take", 4, &[0, 1, 2, 3]),
    ("take_while", 4, &[0, 1, 2, 3]),
    ("map_while", 3, &[5, 6, 7]),
    ("scan", 4, &[0, 1, 3, 6]),
    ("enumerate", 4, &[0, 2, 4, 6]),
    ("chain", 5, &[0, 1, 2, 3, 4]),
    ("chain_of_eight", 16, &[0, 1, 0, 1, 0, 1, 0, 1, 0, 1, 0, 1, 0, 1, 0, 1]),
    ("flat_map", 8, &[0, 1, 2, 3, 1, 2, 3, 4]),
    ("then", 4, &[1, 0, 3, 2]),
    ("unfold", 4, &[1, 0, 3, 2]),
    ("nest", 10, &[4, 10, 16, 22, 28]),
    ("nest_of_eight", 8, &[15, 11, 23, 19]),
    ("joined", 12, &[6, 10, 14, 18, 22]),
    ("skip_while", 6, &[3, 4, 5]),
    ("fuse", 4, &[0, 1, 2, 3]),
    ("flatten", 8, &[0, 1, 2, 3, 1, 2, 3, 4]),
    ("copied", 4, &[0, 1, 2, 3]),
    ("cloned", 4, &[0, 1, 2, 3]),
    ("repeat_with", 4, &[3, 6, 9, 12]),
    ("poll_fn", 4, &[1, 2, 3, 4]),
    ("once", 4, &[1, 0, 3, 2]),
    ("once_future", 4, &[1, 0, 3, 2]),
    ("repeat", 4, &[4, 4, 4, 4]),
    ("try_unfold", 4, &[1, 0, 3, 2]),
];

#[inline(never)]
pub(crate) fn nest(cx: &mut Context<'_>, n: u64, polls: u64) -> u64 {
    let mut nest = stream::iter(0..n)
        .map(|x: u64| x.wrapping_mul(3).wrapping_add(1))
        .filter(|x: &u64| *x % 2 == 0)
        .take(n as usize);
    fold_items(&mut nest, cx, polls)
}

/// Eight adapters.
#[inline(never)]
pub(crate) fn nest_of_eight(cx: &mut Context<'_>, n: u64, polls: u64) -> u64 {
    let mut nest = stream::iter(0..n)
        .map(|x: u64| x.wrapping_mul(3))
        .inspect(|_x: &u64| {})
        .filter(|x: &u64| *x & 7 != 0)
        .enumerate()
        .map(|(i, x): (usize, u64)| x ^ i as u64)
        .take_while(|x: &u64| *x != u64::MAX)
        .skip(3)
        .take(n as usize);
    fold_items(&mut nest, cx, polls)
}

#[inline(never)]
pub(crate) fn joined(cx: &mut Context<'_>, n: u64, polls: u64) -> u64 {
    let half = n / 2;
    let mut joined = stream::iter(0..half)
        .chain(stream::iter(half..n))
        .enumerate()
        .skip(3)
        .step_by(2);
    fold_numbered(&mut joined, cx, polls)
}

/// Streams of 4 items each.
#[inline(never)]
pub(crate) fn flat_map(cx: &mut Context<'_>, n: u64, polls: u64) -> u64 {
    let mut flat = stream::iter(0..n / 4).flat_map(|x: u64| stream::iter(x..x.wrapping_add(4)));
    fold_items(&mut flat, cx, polls)
}

#[inline(never)]
pub(crate) fn iter(cx: &mut Context<'_>, n: u64, polls: u64) -> u64 {
    fold_items(&mut stream::iter(0..n), cx, polls)
}

#[inline(never)]
pub(crate) fn map(cx: &mut Context<'_>, n: u64, polls: u64) -> u64 {
    fold_items(
        &mut stream::iter(0..n).map(|x: u64| x.wrapping_mul(3)),
        cx,
        polls,
    )
}

#[inline(never)]
pub(crate) fn filter(cx: &mut Context<'_>, n: u64, polls: u64) -> u64 {
    fold_items(
        &mut stream::iter(0..n).filter(|x: &u64| *x & 3 != 0),
        cx,
        polls,
    )
}

#[inline(never)]
pub(crate) fn filter_map(cx: &mut Context<'_>, n: u64, polls: u64) -> u64 {
    let mut kept = stream::iter(0..n).filter_map(|x: u64| if x & 3 != 0 {
        Some(x ^ 5)
    } else {
        None
    });
    fold_items(&mut kept, cx, polls)
}

#[inline(never)]
pub(crate) fn skip(cx: &mut Context<'_>, n: u64, polls: u64) -> u64 {
    fold_items(&mut stream::iter(0..n).skip(3), cx, polls)
}

#[inline(never)]
pub(crate) fn step_by(cx: &mut Context<'_>, n: u64, polls: u64) -> u64 {
    fold_items(&mut stream::iter(0..n).step_by(3), cx, polls)
}

#[inline(never)]
pub(crate) fn chain(cx: &mut Context<'_>, n: u64, polls: u64) -> u64 {
    let half = n / 2;
    fold_items(
        &mut stream::iter(0..half).chain(stream::iter(half..n)),
        cx,
        polls,
    )
}

/// Eight streams, one behind another, by seven chains of which each has the one before inside.
#[inline(never)]
pub(crate) fn chain_of_eight(cx: &mut Context<'_>, n: u64, polls: u64) -> u64 {
    let part = n / 8;
    let mut all = stream::iter(0..part)
        .chain(stream::iter(0..part))
        .chain(stream::iter(0..part))
        .chain(stream::iter(0..part))
        .chain(stream::iter(0..part))
        .chain(stream::iter(0..part))
        .chain(stream::iter(0..part))
        .chain(stream::iter(0..part));
    fold_items(&mut all, cx, polls)
}

#[inline(never)]
pub(crate) fn enumerate(cx: &mut Context<'_>, n: u64, polls: u64) -> u64 {
    fold_numbered(&mut stream::iter(0..n).enumerate(), cx, polls)
}

#[inline(never)]
pub(crate) fn take(cx: &mut Context<'_>, n: u64, polls: u64) -> u64 {
    fold_items(&mut stream::iter(0..n).take(n as usize), cx, polls)
}

#[inline(never)]
pub(crate) fn take_while(cx: &mut Context<'_>, n: u64, polls: u64) -> u64 {
    fold_items(
        &mut stream::iter(0..n).take_while(|x: &u64| *x < u64::MAX - 1),
        cx,
        polls,
    )
}

#[inline(never)]
pub(crate) fn map_while(cx: &mut Context<'_>, n: u64, polls: u64) -> u64 {
    fold_items(
        &mut stream::iter(0..n).map_while(|x: u64| x.checked_add(5)),
        cx,
        polls,
    )
}

#[inline(never)]
pub(crate) fn scan(cx: &mut Context<'_>, n: u64, polls: u64) -> u64 {
    let mut sums = stream::iter(0..n).scan(0u64, |state: &mut u64, x: u64| {
        *state = state.wrapping_add(x);
        Some(*state)
    });
    fold_items(&mut sums, cx, polls)
}

#[inline(never)]
pub(crate) fn then(cx: &mut Context<'_>, n: u64, polls: u64) -> u64 {
    let mut made = stream::iter(0..n).then(|x: u64| future::ready(x ^ 1));
    fold_items(&mut made, cx, polls)
}

#[inline(never)]
pub(crate) fn unfold(cx: &mut Context<'_>, n: u64, polls: u64) -> u64 {
    let mut numbers = stream::unfold(0u64, move |s: u64| {
        future::ready(if s < n {
            Some((s ^ 1, s.wrapping_add(1)))
        } else {
            None
        })
    });
    fold_items(&mut numbers, cx, polls)
}

/// `n / 1000` scripts of a thousand answers each, made and then polled.
#[inline(never)]
pub(crate) fn scripts(alloc: Global, cx: &mut Context<'_>, n: u64) -> Result<u64, AllocError> {
    let mut sum = 0u64;
    for i in 0..n / 1000 {
        let mut nest = script(thousand(alloc, i)?)
            .map(|x: u64| x.wrapping_mul(3))
            .filter(|x: &u64| *x % 4 != 0);
        sum = sum.wrapping_add(fold_items(&mut nest, cx, 1001));
    }
    Ok(sum)
}

/// A thousand answers, each eighth of them a pending.
fn thousand(alloc: Global, seed: u64) -> Result<Vec<Poll<Option<u64>>>, AllocError> {
    let mut answers = Vec::with_capacity(alloc, 1000)?;
    for i in 0..1000u64 {
        answers.push(if i % 8 == 7 {
            Poll::Pending
        } else {
            Poll::Ready(Some(i ^ seed))
        })?;
    }
    Ok(answers)
}

#[inline(never)]
pub(crate) fn skip_while(cx: &mut Context<'_>, n: u64, polls: u64) -> u64 {
    fold_items(
        &mut stream::iter(0..n).skip_while(|x: &u64| *x < 3),
        cx,
        polls,
    )
}

#[inline(never)]
pub(crate) fn inspect(cx: &mut Context<'_>, n: u64, polls: u64) -> u64 {
    let mut seen = 0u64;
    let sum = fold_items(
        &mut stream::iter(0..n).inspect(|x: &u64| seen = seen.wrapping_add(*x)),
        cx,
        polls,
    );
    sum.wrapping_add(seen)
}

#[inline(never)]
pub(crate) fn fuse(cx: &mut Context<'_>, n: u64, polls: u64) -> u64 {
    fold_items(&mut stream::iter(0..n).fuse(), cx, polls)
}

/// Streams of 4 items each.
#[inline(never)]
pub(crate) fn flatten(cx: &mut Context<'_>, n: u64, polls: u64) -> u64 {
    let mut flat = stream::iter(0..n / 4)
        .map(|x: u64| stream::iter(x..x.wrapping_add(4)))
        .flatten();
    fold_items(&mut flat, cx, polls)
}

/// The numbers as a vector alone, which the next cases make first.
#[inline(never)]
pub(crate) fn made_numbers(alloc: Global, n: u64) -> Result<u64, AllocError> {
    Ok(numbers(alloc, n)?.len() as u64)
}

fn numbers(alloc: Global, n: u64) -> Result<Vec<u64>, AllocError> {
    (0..n).collect(alloc)
}

/// References to the items of a vector, which is made first.
#[inline(never)]
pub(crate) fn copied(
    alloc: Global,
    cx: &mut Context<'_>,
    n: u64,
    polls: u64,
) -> Result<u64, AllocError> {
    let numbers = numbers(alloc, n)?;
    Ok(fold_items(&mut stream::iter(numbers.iter()).copied(), cx, polls))
}

/// As `copied`. A clone may be refused memory here.
#[inline(never)]
pub(crate) fn cloned(
    alloc: Global,
    cx: &mut Context<'_>,
    n: u64,
    polls: u64,
) -> Result<u64, AllocError> {
    let numbers = numbers(alloc, n)?;
    Ok(fold_found(&mut stream::iter(numbers.iter()).cloned(), cx, polls))
}

#[inline(never)]
pub(crate) fn repeat_with(cx: &mut Context<'_>, polls: u64) -> u64 {
    let mut next = 0u64;
    let mut numbers = stream::repeat_with(|| {
        next = next.wrapping_add(3);
        next
    });
    fold_items(&mut numbers, cx, polls)
}

#[inline(never)]
pub(crate) fn poll_fn(cx: &mut Context<'_>, n: u64, polls: u64) -> u64 {
    let mut next = 0u64;
    let mut numbers = stream::poll_fn(|_cx: &mut Context<'_>| {
        if next == n {
            return Poll::Ready(None);
        }
        next = next.wrapping_add(1);
        Poll::Ready(Some(next))
    });
    fold_items(&mut numbers, cx, polls)
}

/// A stream of each number.
#[inline(never)]
pub(crate) fn once(cx: &mut Context<'_>, n: u64) -> u64 {
    let mut sum = 0u64;
    for i in 0..n {
        if let Poll::Ready(Some(x)) = stream::once(i ^ 1).poll_next(cx) {
            sum = with_item(sum, x);
        }
    }
    sum
}

/// As `once`, of the value of a future.
#[inline(never)]
pub(crate) fn once_future(cx: &mut Context<'_>, n: u64) -> u64 {
    let mut sum = 0u64;
    for i in 0..n {
        if let Poll::Ready(Some(x)) = stream::once_future(future::ready(i ^ 1)).poll_next(cx) {
            sum = with_item(sum, x);
        }
    }
    sum
}

/// Clones of one number. A clone may be refused memory here.
#[inline(never)]
pub(crate) fn repeat(cx: &mut Context<'_>, n: u64, polls: u64) -> u64 {
    fold_found(&mut stream::repeat(n).take(n as usize), cx, polls)
}

/// As `unfold`, of results.
#[inline(never)]
pub(crate) fn try_unfold(cx: &mut Context<'_>, n: u64, polls: u64) -> u64 {
    let mut numbers = stream::try_unfold(0u64, move |s: u64| {
        future::ready(Ok::<Option<(u64, u64)>, AllocError>(if s < n {
            Some((s ^ 1, s.wrapping_add(1)))
        } else {
            None
        }))
    });
    fold_found(&mut numbers, cx, polls)
}
