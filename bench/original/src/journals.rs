//! A journal by hand, and halves. Each case reads `n` bytes, a byte a call.

use crate::bytes::noise;
use futures_lite::io::{split, AsyncRead, Cursor};
use std::pin::Pin;
use std::task::{Context, Poll};

/// A call of `poll_read` with its result.
struct Entry {
    _room: usize,
    _result: Poll<Result<usize, std::io::ErrorKind>>,
    _read: Vec<u8>,
}

/// Each read is one entry.
#[inline(never)]
pub fn journal(cx: &mut Context<'_>, n: u64) -> u64 {
    let mut reader = Cursor::new(noise(n));
    let mut entries = Vec::new();
    let mut sum = 0u64;
    let mut room = [0u8; 1];
    for _ in 0..n {
        let result = Pin::new(&mut reader).poll_read(cx, &mut room);
        let read = match &result {
            Poll::Ready(Ok(count)) => room[..*count].to_vec(),
            _ => Vec::new(),
        };
        if let Poll::Ready(Ok(1)) = result {
            sum = sum.wrapping_add(room[0] as u64);
        }
        entries.push(Entry {
            _room: room.len(),
            _result: result.map(|it| it.map_err(|e| e.kind())),
            _read: read,
        });
    }
    sum.wrapping_add(std::hint::black_box(&entries).len() as u64)
}

/// The read half of a cursor that was split, used by this thread alone.
#[inline(never)]
pub fn half(cx: &mut Context<'_>, n: u64) -> u64 {
    let (mut reader, _writer) = split(Cursor::new(noise(n)));
    let mut sum = 0u64;
    let mut room = [0u8; 1];
    for _ in 0..n {
        if let Poll::Ready(Ok(1)) = Pin::new(&mut reader).poll_read(cx, &mut room) {
            sum = sum.wrapping_add(room[0] as u64);
        }
    }
    sum
}
