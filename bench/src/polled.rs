//! Streams that are polled by hand. How often comes from outside the function that makes the stream, so that a compiler can't know that
//! it is the source's length, and leave out the asking whether that has ended.

use futures_lite::{Context, Poll, Stream};
use std::alloc::AllocError;

/// Folds the items of so many polls, up to the first end.
pub(crate) fn fold_items<S: Stream<Item = u64>>(
    stream: &mut S,
    cx: &mut Context<'_>,
    polls: u64,
) -> u64
    requires { S.can_poll stream.old }
{
    let mut sum = 0u64;
    for _ in 0..polls {
        match stream.poll_next(cx) {
            Poll::Ready(Some(x)) => sum = with_item(sum, x),
            Poll::Ready(None) => break,
            Poll::Pending => {}
        }
    }
    sum
}

/// As `fold_items`, of numbered items.
pub(crate) fn fold_numbered<S: Stream<Item = (usize, u64)>>(
    stream: &mut S,
    cx: &mut Context<'_>,
    polls: u64,
) -> u64
    requires { S.can_poll stream.old }
{
    let mut sum = 0u64;
    for _ in 0..polls {
        match stream.poll_next(cx) {
            Poll::Ready(Some((i, x))) => sum = with_item(sum, x.wrapping_add(i as u64)),
            Poll::Ready(None) => break,
            Poll::Pending => {}
        }
    }
    sum
}

/// As `fold_items`, of pairs.
pub(crate) fn fold_pairs<S: Stream<Item = (u64, u64)>>(
    stream: &mut S,
    cx: &mut Context<'_>,
    polls: u64,
) -> u64
    requires { S.can_poll stream.old }
{
    let mut sum = 0u64;
    for _ in 0..polls {
        match stream.poll_next(cx) {
            Poll::Ready(Some((x, y))) => sum = with_item(sum, x.wrapping_add(y)),
            Poll::Ready(None) => break,
            Poll::Pending => {}
        }
    }
    sum
}

/// As `fold_items`, of items whose memory was found, up to the first refusal.
pub(crate) fn fold_found<S: Stream<Item = Result<u64, AllocError>>>(
    stream: &mut S,
    cx: &mut Context<'_>,
    polls: u64,
) -> u64
    requires { S.can_poll stream.old }
{
    let mut sum = 0u64;
    for _ in 0..polls {
        match stream.poll_next(cx) {
            Poll::Ready(Some(Ok(x))) => sum = with_item(sum, x),
            Poll::Ready(Some(Err(_)) | None) => break,
            Poll::Pending => {}
        }
    }
    sum
}

/// The sum after one more item.
pub(crate) fn with_item(sum: u64, x: u64) -> u64 {
    sum.wrapping_add(x ^ (sum >> 7))
}
