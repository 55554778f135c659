//! Sources and adapters. Each case goes over the numbers below `n`, or as many answers, unless it says otherwise.

use crate::polled::{fold_found, fold_items, fold_numbered, with_item};
use futures_lite::{future, stream, Stream, StreamExt};
use std::pin::pin;
use std::task::{Context, Poll};

/// What the case of this name computes at size `n`, if it is a case of this file.
pub fn computed(cx: &mut Context<'_>, name: &str, n: u64) -> Option<u64> {
    Some(match name {
        "iter" => iter(cx, n, n),
        "map" => map(cx, n, n),
        "filter" => filter(cx, n, n),
        "filter_map" => filter_map(cx, n, n),
        "skip" => skip(cx, n, n),
        "step_by" => step_by(cx, n, n),
        "take" => take(cx, n, n),
        "take_while" => take_while(cx, n, n),
        "map_while" => map_while(cx, n, n),
        "scan" => scan(cx, n, n),
        "enumerate" => enumerate(cx, n, n),
        "chain" => chain(cx, n, n),
        "chain_of_eight" => chain_of_eight(cx, n, n),
        "flat_map" => flat_map(cx, n, n),
        "then" => then(cx, n, n),
        "unfold" => unfold(cx, n, n),
        "nest" => nest(cx, n, n),
        "nest_of_eight" => nest_of_eight(cx, n, n),
        "joined" => joined(cx, n, n),
        "scripts" => scripts(cx, n),
        "skip_while" => skip_while(cx, n, n),
        "inspect" => inspect(cx, n, n),
        "fuse" => fuse(cx, n, n),
        "flatten" => flatten(cx, n, n),
        "made_numbers" => made_numbers(n),
        "copied" => copied(cx, n, n),
        "cloned" => cloned(cx, n, n),
        "repeat_with" => repeat_with(cx, n),
        "poll_fn" => poll_fn(cx, n, n),
        "once" => once(cx, n),
        "once_future" => once_future(cx, n),
        "repeat" => repeat(cx, n, n),
        "try_unfold" => try_unfold(cx, n, n),
        _ => return None,
    })
}

#[inline(never)]
pub fn nest(cx: &mut Context<'_>, n: u64, polls: u64) -> u64 {
    let nest = stream::iter(0..n)
        .map(|x: u64| x.wrapping_mul(3).wrapping_add(1))
        .filter(|x: &u64| *x % 2 == 0)
        .take(n as usize);
    fold_items(pin!(nest), cx, polls)
}

/// Eight adapters.
#[inline(never)]
pub fn nest_of_eight(cx: &mut Context<'_>, n: u64, polls: u64) -> u64 {
    let nest = stream::iter(0..n)
        .map(|x: u64| x.wrapping_mul(3))
        .inspect(|_x: &u64| {})
        .filter(|x: &u64| *x & 7 != 0)
        .enumerate()
        .map(|(i, x): (usize, u64)| x ^ i as u64)
        .take_while(|x: &u64| *x != u64::MAX)
        .skip(3)
        .take(n as usize);
    fold_items(pin!(nest), cx, polls)
}

#[inline(never)]
pub fn joined(cx: &mut Context<'_>, n: u64, polls: u64) -> u64 {
    let half = n / 2;
    let joined = stream::iter(0..half)
        .chain(stream::iter(half..n))
        .enumerate()
        .skip(3)
        .step_by(2);
    fold_numbered(pin!(joined), cx, polls)
}

/// Streams of 4 items each.
#[inline(never)]
pub fn flat_map(cx: &mut Context<'_>, n: u64, polls: u64) -> u64 {
    let flat = stream::iter(0..n / 4).flat_map(|x: u64| stream::iter(x..x.wrapping_add(4)));
    fold_items(pin!(flat), cx, polls)
}

#[inline(never)]
pub fn iter(cx: &mut Context<'_>, n: u64, polls: u64) -> u64 {
    fold_items(pin!(stream::iter(0..n)), cx, polls)
}

#[inline(never)]
pub fn map(cx: &mut Context<'_>, n: u64, polls: u64) -> u64 {
    fold_items(pin!(stream::iter(0..n).map(|x: u64| x.wrapping_mul(3))), cx, polls)
}

#[inline(never)]
pub fn filter(cx: &mut Context<'_>, n: u64, polls: u64) -> u64 {
    fold_items(pin!(stream::iter(0..n).filter(|x: &u64| *x & 3 != 0)), cx, polls)
}

#[inline(never)]
pub fn filter_map(cx: &mut Context<'_>, n: u64, polls: u64) -> u64 {
    let kept = stream::iter(0..n).filter_map(|x: u64| if x & 3 != 0 { Some(x ^ 5) } else { None });
    fold_items(pin!(kept), cx, polls)
}

#[inline(never)]
pub fn skip(cx: &mut Context<'_>, n: u64, polls: u64) -> u64 {
    fold_items(pin!(stream::iter(0..n).skip(3)), cx, polls)
}

#[inline(never)]
pub fn step_by(cx: &mut Context<'_>, n: u64, polls: u64) -> u64 {
    fold_items(pin!(stream::iter(0..n).step_by(3)), cx, polls)
}

#[inline(never)]
pub fn chain(cx: &mut Context<'_>, n: u64, polls: u64) -> u64 {
    let half = n / 2;
    fold_items(pin!(stream::iter(0..half).chain(stream::iter(half..n))), cx, polls)
}

/// Eight streams, one behind another, by seven chains of which each has the one before inside.
#[inline(never)]
pub fn chain_of_eight(cx: &mut Context<'_>, n: u64, polls: u64) -> u64 {
    let part = n / 8;
    let all = stream::iter(0..part)
        .chain(stream::iter(0..part))
        .chain(stream::iter(0..part))
        .chain(stream::iter(0..part))
        .chain(stream::iter(0..part))
        .chain(stream::iter(0..part))
        .chain(stream::iter(0..part))
        .chain(stream::iter(0..part));
    fold_items(pin!(all), cx, polls)
}

#[inline(never)]
pub fn enumerate(cx: &mut Context<'_>, n: u64, polls: u64) -> u64 {
    fold_numbered(pin!(stream::iter(0..n).enumerate()), cx, polls)
}

#[inline(never)]
pub fn take(cx: &mut Context<'_>, n: u64, polls: u64) -> u64 {
    fold_items(pin!(stream::iter(0..n).take(n as usize)), cx, polls)
}

#[inline(never)]
pub fn take_while(cx: &mut Context<'_>, n: u64, polls: u64) -> u64 {
    fold_items(pin!(stream::iter(0..n).take_while(|x: &u64| *x < u64::MAX - 1)), cx, polls)
}

#[inline(never)]
pub fn map_while(cx: &mut Context<'_>, n: u64, polls: u64) -> u64 {
    fold_items(pin!(stream::iter(0..n).map_while(|x: u64| x.checked_add(5))), cx, polls)
}

#[inline(never)]
pub fn scan(cx: &mut Context<'_>, n: u64, polls: u64) -> u64 {
    let sums = stream::iter(0..n).scan(0u64, |state: &mut u64, x: u64| {
        *state = state.wrapping_add(x);
        Some(*state)
    });
    fold_items(pin!(sums), cx, polls)
}

#[inline(never)]
pub fn then(cx: &mut Context<'_>, n: u64, polls: u64) -> u64 {
    fold_items(pin!(stream::iter(0..n).then(|x: u64| future::ready(x ^ 1))), cx, polls)
}

#[inline(never)]
pub fn unfold(cx: &mut Context<'_>, n: u64, polls: u64) -> u64 {
    let numbers = stream::unfold(0u64, move |s: u64| {
        future::ready(if s < n { Some((s ^ 1, s.wrapping_add(1))) } else { None })
    });
    fold_items(pin!(numbers), cx, polls)
}

/// An answer of a script, as large as it is in the port.
struct Padded {
    answer: Poll<Option<u64>>,
    _pad: u64,
}

/// `n / 1000` scripts of a thousand answers each, made and then polled.
#[inline(never)]
pub fn scripts(cx: &mut Context<'_>, n: u64) -> u64 {
    let mut sum = 0u64;
    for i in 0..n / 1000 {
        let mut answers = thousand(i).into_iter();
        let nest = stream::poll_fn(move |_| answers.next().map_or(Poll::Ready(None), |padded| padded.answer))
            .map(|x: u64| x.wrapping_mul(3))
            .filter(|x: &u64| *x % 4 != 0);
        sum = sum.wrapping_add(fold_items(pin!(nest), cx, 1001));
    }
    sum
}

/// A thousand answers, each eighth of them a pending.
fn thousand(seed: u64) -> Vec<Padded> {
    let mut answers = Vec::with_capacity(1000);
    for i in 0..1000u64 {
        let answer = if i % 8 == 7 { Poll::Pending } else { Poll::Ready(Some(i ^ seed)) };
        answers.push(Padded { answer, _pad: 0 });
    }
    answers
}

#[inline(never)]
pub fn skip_while(cx: &mut Context<'_>, n: u64, polls: u64) -> u64 {
    fold_items(pin!(stream::iter(0..n).skip_while(|x: &u64| *x < 3)), cx, polls)
}

#[inline(never)]
pub fn inspect(cx: &mut Context<'_>, n: u64, polls: u64) -> u64 {
    let mut seen = 0u64;
    let sum = fold_items(pin!(stream::iter(0..n).inspect(|x: &u64| seen = seen.wrapping_add(*x))), cx, polls);
    sum.wrapping_add(seen)
}

#[inline(never)]
pub fn fuse(cx: &mut Context<'_>, n: u64, polls: u64) -> u64 {
    fold_items(pin!(stream::iter(0..n).fuse()), cx, polls)
}

/// Streams of 4 items each.
#[inline(never)]
pub fn flatten(cx: &mut Context<'_>, n: u64, polls: u64) -> u64 {
    let flat = stream::iter(0..n / 4).map(|x: u64| stream::iter(x..x.wrapping_add(4))).flatten();
    fold_items(pin!(flat), cx, polls)
}

/// The numbers as a vector alone, which the next cases make first.
#[inline(never)]
pub fn made_numbers(n: u64) -> u64 {
    std::hint::black_box(numbers(n)).len() as u64
}

fn numbers(n: u64) -> Vec<u64> {
    (0..n).collect()
}

/// References to the items of a vector, which is made first.
#[inline(never)]
pub fn copied(cx: &mut Context<'_>, n: u64, polls: u64) -> u64 {
    let numbers = numbers(n);
    fold_items(pin!(stream::iter(numbers.iter()).copied()), cx, polls)
}

/// As `copied`.
#[inline(never)]
pub fn cloned(cx: &mut Context<'_>, n: u64, polls: u64) -> u64 {
    let numbers = numbers(n);
    fold_items(pin!(stream::iter(numbers.iter()).cloned()), cx, polls)
}

#[inline(never)]
pub fn repeat_with(cx: &mut Context<'_>, polls: u64) -> u64 {
    let mut next = 0u64;
    let numbers = stream::repeat_with(|| {
        next = next.wrapping_add(3);
        next
    });
    fold_items(pin!(numbers), cx, polls)
}

#[inline(never)]
pub fn poll_fn(cx: &mut Context<'_>, n: u64, polls: u64) -> u64 {
    let mut next = 0u64;
    let numbers = stream::poll_fn(|_cx: &mut Context<'_>| {
        if next == n {
            return Poll::Ready(None);
        }
        next = next.wrapping_add(1);
        Poll::Ready(Some(next))
    });
    fold_items(pin!(numbers), cx, polls)
}

/// A stream of each number.
#[inline(never)]
pub fn once(cx: &mut Context<'_>, n: u64) -> u64 {
    let mut sum = 0u64;
    for i in 0..n {
        if let Poll::Ready(Some(x)) = pin!(stream::once(i ^ 1)).poll_next(cx) {
            sum = with_item(sum, x);
        }
    }
    sum
}

/// As `once`, of the value of a future.
#[inline(never)]
pub fn once_future(cx: &mut Context<'_>, n: u64) -> u64 {
    let mut sum = 0u64;
    for i in 0..n {
        if let Poll::Ready(Some(x)) = pin!(stream::once_future(future::ready(i ^ 1))).poll_next(cx) {
            sum = with_item(sum, x);
        }
    }
    sum
}

/// Clones of one number.
#[inline(never)]
pub fn repeat(cx: &mut Context<'_>, n: u64, polls: u64) -> u64 {
    fold_items(pin!(stream::repeat(n).take(n as usize)), cx, polls)
}

/// As `unfold`, of results.
#[inline(never)]
pub fn try_unfold(cx: &mut Context<'_>, n: u64, polls: u64) -> u64 {
    let numbers = stream::try_unfold(0u64, move |s: u64| {
        future::ready(Ok::<Option<(u64, u64)>, ()>(if s < n {
            Some((s ^ 1, s.wrapping_add(1)))
        } else {
            None
        }))
    });
    fold_found(pin!(numbers), cx, polls)
}
