//! Readers and writers. A case of a reader reads `n` bytes, or makes `n` reads of a block; one of a writer makes `n` writes.

use crate::merging::BUDGET;
use crate::polled::with_item;
use futures_lite::io::{
    AssertAsync, AsyncAsSync, AsyncBufRead, AsyncRead, AsyncReadExt, AsyncSeekExt, AsyncWrite, BlockOn, BufReader, Cursor,
};
use futures_lite::{future, io, Stream};
use std::future::Future;
use std::io::{IoSliceMut, Read, SeekFrom};
use std::pin::{pin, Pin};
use std::task::{Context, Poll};

/// How many bytes one write of `cursor_overwrite` and `cursor_extend` offers.
pub const BLOCK: u64 = 16;

/// So many bytes, in which the same 256 come again and again.
pub fn noise(n: u64) -> Vec<u8> {
    let mut pattern = [0u8; 256];
    let mut next = 13u8;
    for byte in &mut pattern {
        *byte = next;
        next = next.wrapping_add(167);
    }
    let mut bytes = Vec::with_capacity(n as usize);
    for _ in 0..n / 256 {
        bytes.extend_from_slice(&pattern);
    }
    bytes.extend_from_slice(&pattern[..(n % 256) as usize]);
    bytes
}

/// The noise alone, which the cases of readers make first.
#[inline(never)]
pub fn made_noise(n: u64) -> u64 {
    std::hint::black_box(noise(n)).len() as u64
}

/// Reads to the end, a byte at a time.
#[inline(never)]
fn read_each<R: AsyncRead + Unpin>(reader: &mut R, cx: &mut Context<'_>) -> u64 {
    let mut sum = 0u64;
    let mut room = [0u8; 1];
    for _ in 0..u64::MAX {
        match Pin::new(&mut *reader).poll_read(cx, &mut room) {
            Poll::Ready(Ok(1)) => sum = sum.wrapping_add(room[0] as u64),
            _ => break,
        }
    }
    sum
}

/// Looks at what the buffer shows and consumes one byte of it, as a parser by hand does.
#[inline(never)]
fn consume_each<R: AsyncBufRead + Unpin>(reader: &mut R, cx: &mut Context<'_>) -> u64 {
    let mut sum = 0u64;
    for _ in 0..u64::MAX {
        let byte = match Pin::new(&mut *reader).poll_fill_buf(cx) {
            Poll::Ready(Ok(shown)) => shown.first().copied(),
            _ => None,
        };
        let Some(byte) = byte else {
            break;
        };
        sum = sum.wrapping_add(byte as u64);
        Pin::new(&mut *reader).consume(1);
    }
    sum
}

/// Writes blocks, and counts the bytes that were taken.
#[inline(never)]
pub fn write_blocks<W: AsyncWrite + Unpin>(writer: &mut W, cx: &mut Context<'_>, blocks: u64) -> u64 {
    let mut sum = 0u64;
    for i in 0..blocks {
        match Pin::new(&mut *writer).poll_write(cx, &[(i & 255) as u8; BLOCK as usize]) {
            Poll::Ready(Ok(taken)) => sum = sum.wrapping_add(taken as u64),
            _ => break,
        }
    }
    sum
}

/// A buffered reader over a cursor.
pub fn buffered(bytes: &[u8]) -> BufReader<Cursor<&[u8]>> {
    BufReader::new(Cursor::new(bytes))
}

pub fn cursor_read(cx: &mut Context<'_>, n: u64) -> u64 {
    read_each(&mut Cursor::new(noise(n).as_slice()), cx)
}

pub fn buf_reader(cx: &mut Context<'_>, n: u64) -> u64 {
    read_each(&mut buffered(&noise(n)), cx)
}

pub fn chain_read(cx: &mut Context<'_>, n: u64) -> u64 {
    let bytes = noise(n);
    let (front, rest) = bytes.split_at(bytes.len() / 2);
    read_each(&mut buffered(front).chain(buffered(rest)), cx)
}

pub fn fill(cx: &mut Context<'_>, n: u64) -> u64 {
    consume_each(&mut buffered(&noise(n)), cx)
}

pub fn take_fill(cx: &mut Context<'_>, n: u64) -> u64 {
    consume_each(&mut buffered(&noise(n)).take(n), cx)
}

pub fn chain_fill(cx: &mut Context<'_>, n: u64) -> u64 {
    let bytes = noise(n);
    let (front, rest) = bytes.split_at(bytes.len() / 2);
    consume_each(&mut buffered(front).chain(buffered(rest)), cx)
}

/// Each byte of a buffered reader is an item.
#[inline(never)]
pub fn bytes(cx: &mut Context<'_>, n: u64) -> u64 {
    let noise = noise(n);
    let mut bytes = buffered(&noise).bytes();
    let mut sum = 0u64;
    for _ in 0..n {
        let Poll::Ready(Some(Ok(byte))) = Pin::new(&mut bytes).poll_next(cx) else {
            break;
        };
        sum = sum.wrapping_add(byte as u64);
    }
    sum
}

/// As `cursor_read`, with a wait for each byte.
#[inline(never)]
pub fn blocking_read(n: u64) -> u64 {
    let bytes = noise(n);
    let mut reader = BlockOn::new(Cursor::new(bytes.as_slice()));
    let mut sum = 0u64;
    let mut room = [0u8; 1];
    for _ in 0..n {
        let Ok(1) = reader.read(&mut room) else {
            break;
        };
        sum = sum.wrapping_add(room[0] as u64);
    }
    sum
}

/// As `cursor_read`, with a `block_on` for each byte.
#[inline(never)]
pub fn waits_read(n: u64) -> u64 {
    let bytes = noise(n);
    let mut reader = Cursor::new(bytes.as_slice());
    let mut sum = 0u64;
    let mut room = [0u8; 1];
    for _ in 0..n {
        let Ok(1) = future::block_on(AsyncReadExt::read(&mut reader, &mut room)) else {
            break;
        };
        sum = sum.wrapping_add(room[0] as u64);
    }
    sum
}

/// Over a vector that has the bytes already.
pub fn cursor_overwrite(cx: &mut Context<'_>, n: u64) -> u64 {
    write_blocks(&mut Cursor::new(noise(n * BLOCK)), cx, n)
}

/// Into a vector with room for the bytes.
pub fn cursor_extend(cx: &mut Context<'_>, n: u64) -> u64 {
    write_blocks(&mut Cursor::new(Vec::with_capacity((n * BLOCK) as usize)), cx, n)
}

/// Reads of 16 bytes into two buffers.
#[inline(never)]
pub fn vectored_read(cx: &mut Context<'_>, n: u64) -> u64 {
    let bytes = noise(n * BLOCK);
    let mut reader = Cursor::new(bytes.as_slice());
    let (mut first, mut second) = ([0u8; 8], [0u8; 8]);
    let mut sum = 0u64;
    for _ in 0..n {
        let mut bufs = [IoSliceMut::new(&mut first), IoSliceMut::new(&mut second)];
        let Poll::Ready(Ok(count)) = Pin::new(&mut reader).poll_read_vectored(cx, &mut bufs) else {
            break;
        };
        sum = sum.wrapping_add(count as u64).wrapping_add(second[7] as u64);
    }
    sum
}

pub fn take_read(cx: &mut Context<'_>, n: u64) -> u64 {
    read_each(&mut Cursor::new(noise(n).as_slice()).take(n), cx)
}

/// A reader of std, whose reads never wait.
pub fn asserted_read(cx: &mut Context<'_>, n: u64) -> u64 {
    read_each(&mut AssertAsync::new(noise(n).as_slice()), cx)
}

/// A reader that pauses after each 128 bytes.
struct Budgeted<R> {
    reader: R,
    left: usize,
}

impl<R: AsyncRead + Unpin> AsyncRead for Budgeted<R> {
    fn poll_read(mut self: Pin<&mut Self>, cx: &mut Context<'_>, buf: &mut [u8]) -> Poll<io::Result<usize>> {
        if self.left == 0 {
            self.left = BUDGET;
            cx.waker().wake_by_ref();
            return Poll::Pending;
        }
        let most = self.left.min(buf.len());
        let polled = Pin::new(&mut self.reader).poll_read(cx, &mut buf[..most]);
        match &polled {
            Poll::Ready(Ok(count)) => self.left -= count,
            Poll::Ready(Err(_)) => self.left -= 1,
            Poll::Pending => self.left = BUDGET,
        }
        polled
    }
}

/// As `cursor_read`, with a pause after each 128 bytes.
#[inline(never)]
pub fn with_budget_read(cx: &mut Context<'_>, n: u64) -> u64 {
    let bytes = noise(n);
    let mut reader = Budgeted {
        reader: Cursor::new(bytes.as_slice()),
        left: BUDGET,
    };
    let mut sum = 0u64;
    let mut room = [0u8; 1];
    for _ in 0..u64::MAX {
        match Pin::new(&mut reader).poll_read(cx, &mut room) {
            Poll::Ready(Ok(1)) => sum = sum.wrapping_add(room[0] as u64),
            Poll::Ready(_) => break,
            Poll::Pending => {}
        }
    }
    sum
}

/// As `cursor_read`, by a reader of std that is made for each byte.
#[inline(never)]
pub fn as_sync_read(cx: &mut Context<'_>, n: u64) -> u64 {
    let bytes = noise(n);
    let mut reader = Cursor::new(bytes.as_slice());
    let mut sum = 0u64;
    let mut room = [0u8; 1];
    for _ in 0..n {
        let Ok(1) = AsyncAsSync::new(cx, &mut reader).read(&mut room) else {
            break;
        };
        sum = sum.wrapping_add(room[0] as u64);
    }
    sum
}

/// Reads blocks, and folds how many bytes each read gave, and the last of the block.
#[inline(never)]
fn read_blocks<R: AsyncRead + Unpin>(reader: &mut R, cx: &mut Context<'_>, blocks: u64) -> u64 {
    let mut sum = 0u64;
    let mut block = [0u8; BLOCK as usize];
    for i in 0..blocks {
        if let Poll::Ready(Ok(count)) = Pin::new(&mut *reader).poll_read(cx, &mut block) {
            sum = with_item(sum, i ^ count as u64 ^ block[15] as u64);
        }
    }
    sum
}

pub fn repeat_read(cx: &mut Context<'_>, n: u64) -> u64 {
    read_blocks(&mut io::repeat((n & 255) as u8), cx, n)
}

pub fn empty_read(cx: &mut Context<'_>, n: u64) -> u64 {
    read_blocks(&mut io::empty(), cx, n)
}

/// So many seeks, each by a byte.
#[inline(never)]
pub fn seek(cx: &mut Context<'_>, n: u64) -> u64 {
    let mut cursor = Cursor::new(b"".as_slice());
    let mut sum = 0u64;
    for _ in 0..n {
        let Poll::Ready(Ok(position)) = pin!(cursor.seek(SeekFrom::Current(1))).poll(cx) else {
            break;
        };
        sum = with_item(sum, position);
    }
    sum
}
