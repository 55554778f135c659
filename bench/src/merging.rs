//! Adapters that merge two streams, go round one, pause it, or stop it. Each case gives `n` items.

use crate::fault::Fault;
use crate::polled::{fold_found, fold_items, fold_pairs};
use futures_lite::{Context, StreamExt, future, stream};
use std::alloc::AllocError;

/// What the case of this name computes at size `n`, if it is a case of this file.
pub(crate) fn computed(cx: &mut Context<'_>, name: &str, n: u64) -> Result<Option<u64>, Fault> {
    Ok(Some(match name {
        "zip_streams" => zip(cx, n, n),
        "or_streams" => or(cx, n, n),
        "race_streams" => race_with_seed(cx, n, n),
        "cycle" => cycle(cx, n, n)?,
        "drain" => drain(cx, n, n),
        "with_budget" => with_budget(cx, n, n.saturating_mul(2)),
        "stop_after_future" => stop_after_future(cx, n, n),
        _ => return Ok(None),
    }))
}

/// Cases of this file, their sizes, and the items that they fold.
pub(crate) const FOLDS: &[(&str, u64, &[u64])] = &[
    ("zip_streams", 4, &[5, 7, 9, 11]),
    ("or_streams", 4, &[0, 1, 2, 3]),
    // (its generator's words were reckoned apart)
    ("race_streams", 10, &[0, 10, 1, 11, 12, 2, 13, 14, 3, 15]),
    ("cycle", 10, &[2, 3, 4, 5, 6, 7, 8, 9, 2, 3]),
    ("drain", 4, &[0, 1, 2, 3]),
    ("with_budget", 4, &[0, 1, 2, 3]),
    ("stop_after_future", 4, &[0, 1, 2, 3]),
];

/// How many items or bytes come between two pauses.
pub(crate) const BUDGET: usize = 128;

#[inline(never)]
pub(crate) fn zip(cx: &mut Context<'_>, n: u64, polls: u64) -> u64 {
    let mut pairs = stream::iter(0..n).zip(stream::iter(5..n.wrapping_add(5)));
    fold_pairs(&mut pairs, cx, polls)
}

/// The items of the first stream, and then those of the second.
#[inline(never)]
pub(crate) fn or(cx: &mut Context<'_>, n: u64, polls: u64) -> u64 {
    let half = n / 2;
    fold_items(
        &mut stream::iter(0..half).or(stream::iter(half..n)),
        cx,
        polls,
    )
}

#[inline(never)]
pub(crate) fn race_with_seed(cx: &mut Context<'_>, n: u64, polls: u64) -> u64 {
    let mut merged = stream::race_with_seed(
        stream::iter(0..n),
        stream::iter(n..n.wrapping_mul(2)),
        7,
    );
    fold_items(&mut merged, cx, polls)
}

/// Rounds of 8 items, whose first isn't known to the compiler.
#[inline(never)]
pub(crate) fn cycle(cx: &mut Context<'_>, n: u64, polls: u64) -> Result<u64, AllocError> {
    let first = n % 8;
    match stream::iter(first..first + 8).cycle() {
        Ok(mut rounds) => Ok(fold_found(&mut rounds, cx, polls)),
        Err(_refused) => Err(AllocError),
    }
}

#[inline(never)]
pub(crate) fn drain(cx: &mut Context<'_>, n: u64, polls: u64) -> u64 {
    let mut numbers = stream::iter(0..n);
    fold_items(&mut numbers.drain(), cx, polls)
}

#[inline(never)]
pub(crate) fn stop_after_future(cx: &mut Context<'_>, n: u64, polls: u64) -> u64 {
    let mut numbers = stream::stop_after_future(stream::iter(0..n), future::pending::<()>());
    fold_items(&mut numbers, cx, polls)
}

#[inline(never)]
pub(crate) fn with_budget(cx: &mut Context<'_>, n: u64, polls: u64) -> u64 {
    fold_items(&mut stream::iter(0..n).with_budget(BUDGET), cx, polls)
}
