//! Adapters that merge two streams, go round one, pause it, or stop it. Each case gives `n` items.

use crate::polled::{fold_items, fold_pairs};
use futures_lite::{future, stream, StreamExt};
use std::pin::pin;
use std::task::{Context, Poll};

/// What the case of this name computes at size `n`, if it is a case of this file.
pub fn computed(cx: &mut Context<'_>, name: &str, n: u64) -> Option<u64> {
    Some(match name {
        "zip_streams" => zip(cx, n, n),
        "or_streams" => or(cx, n, n),
        "race_streams" => race_with_seed(cx, n, n),
        "cycle" => cycle(cx, n, n),
        "drain" => drain(cx, n, n),
        "with_budget" => with_budget(cx, n, n.saturating_mul(2)),
        "stop_after_future" => stop_after_future(cx, n, n),
        _ => return None,
    })
}

/// How many items or bytes come between two pauses.
pub const BUDGET: usize = 128;

#[inline(never)]
pub fn zip(cx: &mut Context<'_>, n: u64, polls: u64) -> u64 {
    fold_pairs(pin!(stream::iter(0..n).zip(stream::iter(5..n.wrapping_add(5)))), cx, polls)
}

/// The items of the first stream, and then those of the second.
#[inline(never)]
pub fn or(cx: &mut Context<'_>, n: u64, polls: u64) -> u64 {
    let half = n / 2;
    fold_items(pin!(stream::iter(0..half).or(stream::iter(half..n))), cx, polls)
}

#[inline(never)]
pub fn race_with_seed(cx: &mut Context<'_>, n: u64, polls: u64) -> u64 {
    let merged = stream::race_with_seed(stream::iter(0..n), stream::iter(n..n.wrapping_mul(2)), 7);
    fold_items(pin!(merged), cx, polls)
}

/// Rounds of 8 items, whose first isn't known to the compiler.
#[inline(never)]
pub fn cycle(cx: &mut Context<'_>, n: u64, polls: u64) -> u64 {
    let first = n % 8;
    fold_items(pin!(stream::iter(first..first + 8).cycle()), cx, polls)
}

#[inline(never)]
pub fn drain(cx: &mut Context<'_>, n: u64, polls: u64) -> u64 {
    let mut numbers = stream::iter(0..n);
    fold_items(pin!(numbers.drain()), cx, polls)
}

#[inline(never)]
pub fn stop_after_future(cx: &mut Context<'_>, n: u64, polls: u64) -> u64 {
    let numbers = stream::stop_after_future(stream::iter(0..n), future::pending::<()>());
    fold_items(pin!(numbers), cx, polls)
}

/// The pauses are those of a `poll_fn` that counts.
#[inline(never)]
pub fn with_budget(cx: &mut Context<'_>, n: u64, polls: u64) -> u64 {
    let mut numbers = stream::iter(0..n);
    let mut left = BUDGET;
    let paced = stream::poll_fn(|cx: &mut Context<'_>| {
        if left == 0 {
            left = BUDGET;
            cx.waker().wake_by_ref();
            return Poll::Pending;
        }
        let next = numbers.poll_next(cx);
        match &next {
            Poll::Ready(Some(_)) => left -= 1,
            Poll::Ready(None) => {}
            Poll::Pending => left = BUDGET,
        }
        next
    });
    fold_items(pin!(paced), cx, polls)
}
