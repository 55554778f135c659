//! Futures that are ready, `n` of each, one after another.

use futures_lite::future::{self, BlockOn};
use futures_lite::{Context, Future, FutureExt, Poll};
use rand_core::SeedableRng;
use rand_pcg::Pcg32;
use std::alloc::{AllocError, AllocGlobal};
use std::random::RandomSource;
use std::sync::Wait;

#[inline(never)]
pub(crate) fn zip(cx: &mut Context<'_>, n: u64) -> u64 {
    let mut sum = 0u64;
    for i in 0..n {
        let mut both = future::zip(future::ready(i), future::ready(sum));
        if let Poll::Ready((a, b)) = both.poll(cx) {
            sum = sum.wrapping_add(a ^ (b >> 7));
        }
    }
    sum
}

/// Eight values by seven futures, one in another.
#[inline(never)]
pub(crate) fn zip_of_eight(cx: &mut Context<'_>, n: u64) -> u64 {
    let mut sum = 0u64;
    for i in 0..n {
        let two = future::zip(future::ready(i), future::ready(sum));
        let four = future::zip(future::zip(two, future::ready(1u64)), future::ready(2u64));
        let six = future::zip(future::zip(four, future::ready(3u64)), future::ready(4u64));
        let mut all = future::zip(future::zip(six, future::ready(5u64)), future::ready(6u64));
        if let Poll::Ready((((((((a, b), c), d), e), f), g), h)) = all.poll(cx) {
            sum = sum.wrapping_add(a ^ (b >> 7) ^ c ^ d ^ e ^ f ^ g ^ h);
        }
    }
    sum
}

#[inline(never)]
pub(crate) fn or(cx: &mut Context<'_>, n: u64) -> u64 {
    let mut sum = 0u64;
    for i in 0..n {
        let mut either = future::or(future::ready(i ^ (sum >> 7)), future::ready(sum));
        if let Poll::Ready(a) = either.poll(cx) {
            sum = sum.wrapping_add(a);
        }
    }
    sum
}

/// A generator is made of each number.
#[inline(never)]
pub(crate) fn race_with_seed(cx: &mut Context<'_>, n: u64) -> u64 {
    let mut sum = 0u64;
    for i in 0..n {
        let mut either = future::race_with_seed(
            future::ready(i ^ (sum >> 7)),
            future::ready(sum >> 9),
            i,
        );
        if let Poll::Ready(a) = either.poll(cx) {
            sum = sum.wrapping_add(a);
        }
    }
    sum
}

#[inline(never)]
pub(crate) fn block_on_ready<R>(rt: &R, n: u64) -> Result<u64, AllocError>
where
    R: Wait + RandomSource + AllocGlobal,
{
    let mut sum = 0u64;
    for i in 0..n {
        sum = sum.wrapping_add(future::block_on(rt, future::ready(i ^ sum))?);
    }
    Ok(sum)
}

#[inline(never)]
pub(crate) fn block_on_yield<R>(rt: &R, n: u64) -> Result<u64, AllocError>
where
    R: Wait + RandomSource + AllocGlobal,
{
    let mut sum = 0u64;
    for i in 0..n {
        future::block_on(rt, future::yield_now())?;
        sum = sum.wrapping_add(i);
    }
    Ok(sum)
}

/// As `block_on_ready`, with one `BlockOn` for all.
#[inline(never)]
pub(crate) fn held_ready<R>(rt: &R, n: u64) -> Result<u64, AllocError>
where
    R: Wait + RandomSource + AllocGlobal,
{
    let mut sleeper = BlockOn::new(rt)?;
    let mut sum = 0u64;
    for i in 0..n {
        sum = sum.wrapping_add(sleeper.block_on(rt, future::ready(i ^ sum))?);
    }
    Ok(sum)
}

/// As `block_on_yield`, with one `BlockOn` for all.
#[inline(never)]
pub(crate) fn held_yield<R>(rt: &R, n: u64) -> Result<u64, AllocError>
where
    R: Wait + RandomSource + AllocGlobal,
{
    let mut sleeper = BlockOn::new(rt)?;
    let mut sum = 0u64;
    for i in 0..n {
        sleeper.block_on(rt, future::yield_now())?;
        sum = sum.wrapping_add(i);
    }
    Ok(sum)
}

#[inline(never)]
pub(crate) fn try_zip(cx: &mut Context<'_>, n: u64) -> u64 {
    let mut sum = 0u64;
    for i in 0..n {
        let mut both = future::try_zip(
            future::ready(Ok::<u64, u64>(i)),
            future::ready(Ok::<u64, u64>(sum)),
        );
        if let Poll::Ready(Ok((a, b))) = both.poll(cx) {
            sum = sum.wrapping_add(a ^ (b >> 7));
        }
    }
    sum
}

#[inline(never)]
pub(crate) fn poll_once(cx: &mut Context<'_>, n: u64) -> u64 {
    let mut sum = 0u64;
    for i in 0..n {
        if let Poll::Ready(Some(a)) = future::poll_once(future::ready(i ^ (sum >> 7))).poll(cx) {
            sum = sum.wrapping_add(a);
        }
    }
    sum
}

/// One generator for all.
#[inline(never)]
pub(crate) fn race(cx: &mut Context<'_>, n: u64) -> u64 {
    let mut rng = Pcg32::seed_from_u64(7);
    let mut sum = 0u64;
    for i in 0..n {
        let mut either = future::race(
            future::ready(i ^ (sum >> 7)),
            future::ready(sum >> 9),
            &mut rng,
        );
        if let Poll::Ready(a) = either.poll(cx) {
            sum = sum.wrapping_add(a);
        }
    }
    sum
}

/// Each may be polled twice.
#[inline(never)]
pub(crate) fn with_poll_limit(cx: &mut Context<'_>, n: u64) -> u64 {
    let mut sum = 0u64;
    for i in 0..n {
        let mut limited = future::ready(i ^ (sum >> 7)).with_poll_limit(2);
        if let Poll::Ready(Ok(a)) = limited.poll(cx) {
            sum = sum.wrapping_add(a);
        }
    }
    sum
}
