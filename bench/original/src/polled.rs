//! Streams that are polled by hand. How often comes from outside the function that makes the stream, so that a compiler can't know that
//! it is the source's length.

use futures_lite::Stream;
use std::pin::Pin;
use std::task::{Context, Poll};

/// Folds the items of so many polls, up to the first end.
pub fn fold_items<S: Stream<Item = u64>>(mut stream: Pin<&mut S>, cx: &mut Context<'_>, polls: u64) -> u64 {
    let mut sum = 0u64;
    for _ in 0..polls {
        match stream.as_mut().poll_next(cx) {
            Poll::Ready(Some(x)) => sum = with_item(sum, x),
            Poll::Ready(None) => break,
            Poll::Pending => {}
        }
    }
    sum
}

/// As `fold_items`, of numbered items.
pub fn fold_numbered<S: Stream<Item = (usize, u64)>>(mut stream: Pin<&mut S>, cx: &mut Context<'_>, polls: u64) -> u64 {
    let mut sum = 0u64;
    for _ in 0..polls {
        match stream.as_mut().poll_next(cx) {
            Poll::Ready(Some((i, x))) => sum = with_item(sum, x.wrapping_add(i as u64)),
            Poll::Ready(None) => break,
            Poll::Pending => {}
        }
    }
    sum
}

/// As `fold_items`, of pairs.
pub fn fold_pairs<S: Stream<Item = (u64, u64)>>(mut stream: Pin<&mut S>, cx: &mut Context<'_>, polls: u64) -> u64 {
    let mut sum = 0u64;
    for _ in 0..polls {
        match stream.as_mut().poll_next(cx) {
            Poll::Ready(Some((x, y))) => sum = with_item(sum, x.wrapping_add(y)),
            Poll::Ready(None) => break,
            Poll::Pending => {}
        }
    }
    sum
}

/// As `fold_items`, of results, up to the first error.
pub fn fold_found<S: Stream<Item = Result<u64, ()>>>(mut stream: Pin<&mut S>, cx: &mut Context<'_>, polls: u64) -> u64 {
    let mut sum = 0u64;
    for _ in 0..polls {
        match stream.as_mut().poll_next(cx) {
            Poll::Ready(Some(Ok(x))) => sum = with_item(sum, x),
            Poll::Ready(Some(Err(())) | None) => break,
            Poll::Pending => {}
        }
    }
    sum
}

/// The sum after one more item.
pub fn with_item(sum: u64, x: u64) -> u64 {
    sum.wrapping_add(x ^ (sum >> 7))
}
