//! Futures that are ready, `n` of each, one after another.

use futures_lite::future;
use std::future::Future;
use std::pin::pin;
use std::task::{Context, Poll};

#[inline(never)]
pub fn zip(cx: &mut Context<'_>, n: u64) -> u64 {
    let mut sum = 0u64;
    for i in 0..n {
        if let Poll::Ready((a, b)) = pin!(future::zip(future::ready(i), future::ready(sum))).poll(cx) {
            sum = sum.wrapping_add(a ^ (b >> 7));
        }
    }
    sum
}

/// Eight values by seven futures, one in another.
#[inline(never)]
pub fn zip_of_eight(cx: &mut Context<'_>, n: u64) -> u64 {
    let mut sum = 0u64;
    for i in 0..n {
        let two = future::zip(future::ready(i), future::ready(sum));
        let four = future::zip(future::zip(two, future::ready(1u64)), future::ready(2u64));
        let six = future::zip(future::zip(four, future::ready(3u64)), future::ready(4u64));
        let all = future::zip(future::zip(six, future::ready(5u64)), future::ready(6u64));
        if let Poll::Ready((((((((a, b), c), d), e), f), g), h)) = pin!(all).poll(cx) {
            sum = sum.wrapping_add(a ^ (b >> 7) ^ c ^ d ^ e ^ f ^ g ^ h);
        }
    }
    sum
}

#[inline(never)]
pub fn or(cx: &mut Context<'_>, n: u64) -> u64 {
    let mut sum = 0u64;
    for i in 0..n {
        if let Poll::Ready(a) = pin!(future::or(future::ready(i ^ (sum >> 7)), future::ready(sum))).poll(cx) {
            sum = sum.wrapping_add(a);
        }
    }
    sum
}

/// A generator is made of each number.
#[inline(never)]
pub fn race_with_seed(cx: &mut Context<'_>, n: u64) -> u64 {
    let mut sum = 0u64;
    for i in 0..n {
        let either = future::race_with_seed(future::ready(i ^ (sum >> 7)), future::ready(sum >> 9), i);
        if let Poll::Ready(a) = pin!(either).poll(cx) {
            sum = sum.wrapping_add(a);
        }
    }
    sum
}

#[inline(never)]
pub fn block_on_ready(n: u64) -> u64 {
    let mut sum = 0u64;
    for i in 0..n {
        sum = sum.wrapping_add(future::block_on(future::ready(i ^ sum)));
    }
    sum
}

#[inline(never)]
pub fn block_on_yield(n: u64) -> u64 {
    let mut sum = 0u64;
    for i in 0..n {
        future::block_on(future::yield_now());
        sum = sum.wrapping_add(i);
    }
    sum
}

#[inline(never)]
pub fn try_zip(cx: &mut Context<'_>, n: u64) -> u64 {
    let mut sum = 0u64;
    for i in 0..n {
        let both = future::try_zip(future::ready(Ok::<u64, u64>(i)), future::ready(Ok::<u64, u64>(sum)));
        if let Poll::Ready(Ok((a, b))) = pin!(both).poll(cx) {
            sum = sum.wrapping_add(a ^ (b >> 7));
        }
    }
    sum
}

#[inline(never)]
pub fn poll_once(cx: &mut Context<'_>, n: u64) -> u64 {
    let mut sum = 0u64;
    for i in 0..n {
        if let Poll::Ready(Some(a)) = pin!(future::poll_once(future::ready(i ^ (sum >> 7)))).poll(cx) {
            sum = sum.wrapping_add(a);
        }
    }
    sum
}

/// The generator is the thread's.
#[inline(never)]
pub fn race(cx: &mut Context<'_>, n: u64) -> u64 {
    let mut sum = 0u64;
    for i in 0..n {
        let either = future::race(future::ready(i ^ (sum >> 7)), future::ready(sum >> 9));
        if let Poll::Ready(a) = pin!(either).poll(cx) {
            sum = sum.wrapping_add(a);
        }
    }
    sum
}

/// Each may be polled twice, as a `poll_fn` counts.
#[inline(never)]
pub fn with_poll_limit(cx: &mut Context<'_>, n: u64) -> u64 {
    let mut sum = 0u64;
    for i in 0..n {
        let mut inner = pin!(future::ready(i ^ (sum >> 7)));
        let mut left = 2usize;
        let limited = future::poll_fn(|cx: &mut Context<'_>| {
            if left == 0 {
                return Poll::Ready(None);
            }
            left -= 1;
            match inner.as_mut().poll(cx) {
                Poll::Ready(a) => Poll::Ready(Some(a)),
                Poll::Pending if left == 0 => Poll::Ready(None),
                Poll::Pending => Poll::Pending,
            }
        });
        if let Poll::Ready(Some(a)) = pin!(limited).poll(cx) {
            sum = sum.wrapping_add(a);
        }
    }
    sum
}
