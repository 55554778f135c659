//! Journals and halves. Each case reads `n` bytes, a byte a call.

use crate::bytes::noise;
use crate::fault::Fault;
use futures_lite::io::{AsyncRead, Cursor, Journal, split};
use futures_lite::{Context, Poll};
use std::alloc::{AllocGlobal, Global};
use std::sync::Wait;

/// Each read is one entry.
#[inline(never)]
pub(crate) fn journal(alloc: Global, cx: &mut Context<'_>, n: u64) -> Result<u64, Fault> {
    let Ok(mut journal) = Journal::new(alloc, Cursor::new(noise(alloc, n)?)) else {
        return Err(Fault::Memory);
    };
    let sum = read_each(&mut journal, cx, n);
    Ok(sum.wrapping_add(journal.entries().len() as u64))
}

/// The read half of a cursor that was split, used by this thread alone.
#[inline(never)]
pub(crate) fn half<R: Wait + AllocGlobal + Copy>(
    rt: R,
    cx: &mut Context<'_>,
    n: u64,
) -> Result<u64, Fault> {
    let Ok((mut reader, _writer)) = split(rt, Cursor::new(noise(rt.alloc(), n)?)) else {
        return Err(Fault::Memory);
    };
    Ok(read_each(&mut reader, cx, n))
}

fn read_each<S: AsyncRead>(reader: &mut S, cx: &mut Context<'_>, n: u64) -> u64 {
    let mut sum = 0u64;
    let mut room = [0u8; 1];
    for _ in 0..n {
        if let Poll::Ready(Ok(1)) = reader.poll_read(cx, &mut room) {
            sum = sum.wrapping_add(room[0] as u64);
        }
    }
    sum
}
