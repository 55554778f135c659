//! Values and chunks of 16 bytes each with their number before them, and a server of lines, by hand.

use crate::texts::{repeated, text};
use futures_lite::future;
use futures_lite::io::{self, AsyncBufRead, AsyncBufReadExt, AsyncReadExt, AsyncWriteExt};
use std::future::Future;
use std::pin::{Pin, pin};
use std::task::{Context, Poll};

/// A value with its number.
pub const VALUE: &[u8] = b"\0\0\0\x100123456789abcdef";

/// A chunk, as HTTP has them.
pub const CHUNK: &[u8] = b"10\r\n0123456789abcdef\r\n";

/// How many bytes may stand before the newline of a chunk's first line.
const HEAD: usize = 17;

/// How many bytes a value may have.
pub const MAX: u32 = 64;

/// How many bytes a line may have.
pub const LINE: usize = 1 << 10;

/// The bytes of all values, without their numbers, by two reads for each value.
#[inline(never)]
pub fn values_by_hand(cx: &mut Context<'_>, n: u64) -> u64 {
    let bytes = repeated(VALUE, n);
    let mut reader = bytes.as_slice();
    let mut sum = 0u64;
    for _ in 0..n {
        let Some(value) = read_value(&mut reader, cx) else {
            break;
        };
        sum = sum.wrapping_add(value.len() as u64);
    }
    sum
}

/// The next value of the reader, which is never pending.
fn read_value(reader: &mut &[u8], cx: &mut Context<'_>) -> Option<Vec<u8>> {
    let mut number = [0u8; 4];
    let Poll::Ready(Ok(())) = pin!(reader.read_exact(&mut number)).poll(cx) else {
        return None;
    };
    let number = u32::from_be_bytes(number);
    if number > MAX {
        return None;
    }
    let mut value = vec![0u8; number as usize];
    let Poll::Ready(Ok(())) = pin!(reader.read_exact(&mut value)).poll(cx) else {
        return None;
    };
    Some(value)
}

/// As `values_by_hand`, each value lent from the bytes, in which it stands whole.
#[inline(never)]
pub fn lent_values(cx: &mut Context<'_>, n: u64) -> u64 {
    let bytes = repeated(VALUE, n);
    let mut reader = bytes.as_slice();
    let mut sum = 0u64;
    for _ in 0..n {
        let Poll::Ready(Ok(shown)) = Pin::new(&mut reader).poll_fill_buf(cx) else {
            break;
        };
        let Some(value) = lent_value(shown) else {
            break;
        };
        let length = value.len();
        Pin::new(&mut reader).consume(4 + length);
        sum = sum.wrapping_add(length as u64);
    }
    sum
}

/// The value at the front of the bytes.
fn lent_value(bytes: &[u8]) -> Option<&[u8]> {
    let (number, rest) = bytes.split_first_chunk()?;
    let number = u32::from_be_bytes(*number);
    if number > MAX {
        return None;
    }
    rest.get(..number as usize)
}

/// So many lines to a server, which replies with the line into a vector with room for the replies.
#[inline(never)]
pub fn served_lines(n: u64) -> u64 {
    let bytes = text(n);
    let mut replies = Vec::with_capacity(n as usize * 16);
    match future::block_on(serve(&bytes, &mut replies)) {
        Ok(()) => replies.len() as u64,
        Err(_) => 0,
    }
}

async fn serve(mut requests: &[u8], replies: &mut Vec<u8>) -> io::Result<()> {
    let mut line = Vec::new();
    loop {
        if requests.is_empty() {
            replies.flush().await?;
        }
        line.clear();
        if requests.read_until(b'\n', &mut line).await? == 0 {
            return Ok(());
        }
        if line.len() > LINE {
            return Err(io::ErrorKind::InvalidData.into());
        }
        replies.write_all(&line).await?;
    }
}

/// Chunks with their length in hexadecimal digits before them, cut by hand.
#[inline(never)]
pub fn chunks(n: u64) -> u64 {
    let bytes = repeated(CHUNK, n);
    let mut left = bytes.as_slice();
    let mut sum = 0u64;
    for _ in 0..n {
        let Some((body, rest)) = take_body(left) else {
            break;
        };
        sum = sum.wrapping_add(std::hint::black_box(body).len() as u64);
        left = rest;
    }
    sum
}

/// The body of the first chunk, and what stands behind it.
fn take_body(bytes: &[u8]) -> Option<(Vec<u8>, &[u8])> {
    let at = bytes.iter().take(HEAD + 1).position(|it| *it == b'\n')?;
    let head = std::str::from_utf8(bytes[..at].strip_suffix(b"\r")?).ok()?;
    let length = usize::from_str_radix(head, 16).ok()?;
    let body = bytes[at + 1..].get(..length)?;
    let rest = bytes[at + 1 + length..].strip_prefix(b"\r\n")?;
    Some((body.to_vec(), rest))
}
