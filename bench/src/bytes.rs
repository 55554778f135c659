//! Readers and writers. A case of a reader reads `n` bytes, or makes `n` reads of a block; one of a writer makes `n` writes.

use crate::fault::Fault;
use crate::merging::BUDGET;
use crate::polled::with_item;
use futures_lite::io::{
    AssertAsync, AsyncAsSync, AsyncBufRead, AsyncRead, AsyncReadExt, AsyncSeekExt, AsyncWrite,
    BlockOn, BufReader, Cursor, IoSliceMut, SeekFrom,
};
use futures_lite::{Context, Future, Poll, Stream, future, io};
use std::alloc::{AllocError, AllocGlobal, Global};
use std::io::Read;
use std::random::RandomSource;
use std::sync::Wait;

/// How many bytes one write of `cursor_overwrite` and `cursor_extend` offers.
pub(crate) const BLOCK: u64 = 16;

/// So many bytes, in which the same 256 come again and again.
pub(crate) fn noise(alloc: Global, n: u64) -> Result<Vec<u8>, AllocError> {
    let mut pattern = [0u8; 256];
    let mut next = 13u8;
    for byte in &mut pattern {
        *byte = next;
        next = next.wrapping_add(167);
    }
    let mut bytes = Vec::with_capacity(alloc, n as usize)?;
    for _ in 0..n / 256 {
        bytes.extend_from_slice(&pattern)?;
    }
    bytes.extend_from_slice(&pattern[..(n % 256) as usize])?;
    Ok(bytes)
}

/// The bytes of so many blocks. More than memory can hold are refused as any are.
pub(crate) fn blocks_len(blocks: u64) -> Result<u64, Fault> {
    match blocks.checked_mul(BLOCK) {
        Some(len) => Ok(len),
        None => Err(Fault::Memory),
    }
}

/// The noise alone, which the cases of readers make first.
#[inline(never)]
pub(crate) fn made_noise(alloc: Global, n: u64) -> Result<u64, Fault> {
    let bytes = noise(alloc, n)?;
    Ok(bytes.len() as u64)
}

/// Reads to the end, a byte at a time.
#[inline(never)]
fn read_each<R: AsyncRead>(reader: &mut R, cx: &mut Context<'_>) -> u64 {
    let mut sum = 0u64;
    let mut room = [0u8; 1];
    for _ in 0..u64::MAX {
        match reader.poll_read(cx, &mut room) {
            Poll::Ready(Ok(1)) => sum = sum.wrapping_add(room[0] as u64),
            _ => break,
        }
    }
    sum
}

/// Looks at what is lent and consumes one byte of it, as a parser by hand does.
#[inline(never)]
fn consume_each<R: AsyncBufRead>(reader: &mut R, cx: &mut Context<'_>) -> u64 {
    let mut sum = 0u64;
    for _ in 0..u64::MAX {
        let byte = match reader.poll_fill_buf(cx) {
            Poll::Ready(Ok(lent)) => lent.first().copied(),
            _ => None,
        };
        let Some(byte) = byte else {
            break;
        };
        sum = sum.wrapping_add(byte as u64);
        reader.consume(1);
    }
    sum
}

/// Writes blocks, and counts the bytes that were taken.
#[inline(never)]
pub(crate) fn write_blocks<W: AsyncWrite>(
    writer: &mut W,
    cx: &mut Context<'_>,
    blocks: u64,
) -> u64 {
    let mut sum = 0u64;
    for i in 0..blocks {
        match writer.poll_write(cx, &[(i & 255) as u8; BLOCK as usize]) {
            Poll::Ready(Ok(taken)) => sum = sum.wrapping_add(taken as u64),
            _ => break,
        }
    }
    sum
}

/// A buffered reader over a cursor, or a fault where its buffer was refused.
pub(crate) fn buffered(alloc: Global, bytes: &[u8]) -> Result<BufReader<Cursor<&[u8]>>, Fault> {
    match BufReader::new(alloc, Cursor::new(bytes)) {
        Ok(reader) => Ok(reader),
        Err(_) => Err(Fault::Memory),
    }
}

pub(crate) fn cursor_read(alloc: Global, cx: &mut Context<'_>, n: u64) -> Result<u64, Fault> {
    let bytes = noise(alloc, n)?;
    Ok(read_each(&mut Cursor::new(bytes.as_slice()), cx))
}

pub(crate) fn buf_reader(alloc: Global, cx: &mut Context<'_>, n: u64) -> Result<u64, Fault> {
    let bytes = noise(alloc, n)?;
    Ok(read_each(&mut buffered(alloc, &bytes)?, cx))
}

pub(crate) fn chain_read(alloc: Global, cx: &mut Context<'_>, n: u64) -> Result<u64, Fault> {
    let bytes = noise(alloc, n)?;
    let (front, rest) = bytes.split_at(bytes.len() / 2);
    Ok(read_each(
        &mut buffered(alloc, front)?.chain(buffered(alloc, rest)?),
        cx,
    ))
}

pub(crate) fn fill(alloc: Global, cx: &mut Context<'_>, n: u64) -> Result<u64, Fault> {
    let bytes = noise(alloc, n)?;
    Ok(consume_each(&mut buffered(alloc, &bytes)?, cx))
}

pub(crate) fn take_fill(alloc: Global, cx: &mut Context<'_>, n: u64) -> Result<u64, Fault> {
    let bytes = noise(alloc, n)?;
    Ok(consume_each(&mut buffered(alloc, &bytes)?.take(n), cx))
}

pub(crate) fn chain_fill(alloc: Global, cx: &mut Context<'_>, n: u64) -> Result<u64, Fault> {
    let bytes = noise(alloc, n)?;
    let (front, rest) = bytes.split_at(bytes.len() / 2);
    Ok(consume_each(
        &mut buffered(alloc, front)?.chain(buffered(alloc, rest)?),
        cx,
    ))
}

/// Each byte of a buffered reader is an item.
#[inline(never)]
pub(crate) fn bytes(alloc: Global, cx: &mut Context<'_>, n: u64) -> Result<u64, Fault> {
    let noise = noise(alloc, n)?;
    let mut bytes = buffered(alloc, &noise)?.bytes();
    let mut sum = 0u64;
    for _ in 0..n {
        let Poll::Ready(Some(Ok(byte))) = bytes.poll_next(cx) else {
            break;
        };
        sum = sum.wrapping_add(byte as u64);
    }
    Ok(sum)
}

/// As `cursor_read`, with a wait for each byte.
#[inline(never)]
pub(crate) fn held_read<R>(rt: R, n: u64) -> Result<u64, Fault>
where
    R: Wait + RandomSource + AllocGlobal + Copy,
{
    let bytes = noise(rt.alloc(), n)?;
    let mut reader = BlockOn::new(rt, Cursor::new(bytes.as_slice()));
    let mut sum = 0u64;
    let mut room = [0u8; 1];
    for _ in 0..n {
        let Ok(1) = reader.read(&mut room) else {
            break;
        };
        sum = sum.wrapping_add(room[0] as u64);
    }
    Ok(sum)
}

/// As `held_read`, with one context for all waits.
#[inline(never)]
pub(crate) fn blocking_read<R>(rt: R, n: u64) -> Result<u64, Fault>
where
    R: Wait + RandomSource + AllocGlobal + Copy,
{
    let bytes = noise(rt.alloc(), n)?;
    let mut on = future::BlockOn::new(&rt)?;
    let mut waits = on.waits();
    let mut reader = BlockOn::by(&mut waits, rt, Cursor::new(bytes.as_slice()));
    let mut sum = 0u64;
    let mut room = [0u8; 1];
    for _ in 0..n {
        let Ok(1) = reader.read(&mut room) else {
            break;
        };
        sum = sum.wrapping_add(room[0] as u64);
    }
    Ok(sum)
}

/// As `blocking_read`, with a future for each wait.
#[inline(never)]
pub(crate) fn waits_read<R>(rt: &R, n: u64) -> Result<u64, Fault>
where
    R: Wait + RandomSource + AllocGlobal,
{
    let bytes = noise(rt.alloc(), n)?;
    let mut reader = Cursor::new(bytes.as_slice());
    let mut on = future::BlockOn::new(rt)?;
    let mut waits = on.waits();
    let mut sum = 0u64;
    let mut room = [0u8; 1];
    for _ in 0..n {
        let Ok(1) = waits.wait_for(rt, &mut reader.read(&mut room)) else {
            break;
        };
        sum = sum.wrapping_add(room[0] as u64);
    }
    Ok(sum)
}

/// Over a vector that has the bytes already.
pub(crate) fn cursor_overwrite(alloc: Global, cx: &mut Context<'_>, n: u64) -> Result<u64, Fault> {
    let mut cursor = Cursor::new(noise(alloc, blocks_len(n)?)?);
    Ok(write_blocks(&mut cursor, cx, n))
}

/// Into a vector with room for the bytes.
pub(crate) fn cursor_extend(alloc: Global, cx: &mut Context<'_>, n: u64) -> Result<u64, Fault> {
    let mut cursor = Cursor::new(Vec::with_capacity(alloc, blocks_len(n)? as usize)?);
    Ok(write_blocks(&mut cursor, cx, n))
}

/// Reads of 16 bytes into two buffers.
#[inline(never)]
pub(crate) fn vectored_read(alloc: Global, cx: &mut Context<'_>, n: u64) -> Result<u64, Fault> {
    let bytes = noise(alloc, blocks_len(n)?)?;
    let mut reader = Cursor::new(bytes.as_slice());
    let (mut first, mut second) = ([0u8; 8], [0u8; 8]);
    let mut sum = 0u64;
    for _ in 0..n {
        let mut bufs = [IoSliceMut::new(&mut first), IoSliceMut::new(&mut second)];
        let Poll::Ready(Ok(count)) = reader.poll_read_vectored(cx, &mut bufs) else {
            break;
        };
        sum = sum.wrapping_add(count as u64).wrapping_add(second[7] as u64);
    }
    Ok(sum)
}

pub(crate) fn take_read(alloc: Global, cx: &mut Context<'_>, n: u64) -> Result<u64, Fault> {
    let bytes = noise(alloc, n)?;
    Ok(read_each(&mut Cursor::new(bytes.as_slice()).take(n), cx))
}

/// A reader of std, whose reads never wait.
pub(crate) fn asserted_read(alloc: Global, cx: &mut Context<'_>, n: u64) -> Result<u64, Fault> {
    let bytes = noise(alloc, n)?;
    Ok(read_each(&mut AssertAsync::new(bytes.as_slice()), cx))
}

/// As `cursor_read`, with a pause after each 128 bytes.
#[inline(never)]
pub(crate) fn with_budget_read(alloc: Global, cx: &mut Context<'_>, n: u64) -> Result<u64, Fault> {
    let bytes = noise(alloc, n)?;
    let mut reader = Cursor::new(bytes.as_slice()).with_budget(BUDGET);
    let mut sum = 0u64;
    let mut room = [0u8; 1];
    for _ in 0..u64::MAX {
        match reader.poll_read(cx, &mut room) {
            Poll::Ready(Ok(1)) => sum = sum.wrapping_add(room[0] as u64),
            Poll::Ready(_) => break,
            Poll::Pending => {}
        }
    }
    Ok(sum)
}

/// As `cursor_read`, by a reader of std that is made for each byte.
#[inline(never)]
pub(crate) fn as_sync_read(alloc: Global, cx: &mut Context<'_>, n: u64) -> Result<u64, Fault> {
    let bytes = noise(alloc, n)?;
    let mut reader = Cursor::new(bytes.as_slice());
    let mut sum = 0u64;
    let mut room = [0u8; 1];
    for _ in 0..n {
        let Ok(1) = AsyncAsSync::new(cx, &mut reader).read(&mut room) else {
            break;
        };
        sum = sum.wrapping_add(room[0] as u64);
    }
    Ok(sum)
}

/// Reads blocks, and folds how many bytes each read gave, and the last of the block.
#[inline(never)]
fn read_blocks<R: AsyncRead>(reader: &mut R, cx: &mut Context<'_>, blocks: u64) -> u64 {
    let mut sum = 0u64;
    let mut block = [0u8; BLOCK as usize];
    for i in 0..blocks {
        if let Poll::Ready(Ok(count)) = reader.poll_read(cx, &mut block) {
            sum = with_item(sum, i ^ count as u64 ^ block[15] as u64);
        }
    }
    sum
}

pub(crate) fn repeat_read(cx: &mut Context<'_>, n: u64) -> u64 {
    read_blocks(&mut io::repeat((n & 255) as u8), cx, n)
}

pub(crate) fn empty_read(cx: &mut Context<'_>, n: u64) -> u64 {
    read_blocks(&mut io::empty(), cx, n)
}

/// So many seeks, each by a byte.
#[inline(never)]
pub(crate) fn seek(cx: &mut Context<'_>, n: u64) -> u64 {
    let mut cursor = Cursor::new(b"".as_slice());
    let mut sum = 0u64;
    for _ in 0..n {
        let Poll::Ready(Ok(position)) = cursor.seek(SeekFrom::Current(1)).poll(cx) else {
            break;
        };
        sum = with_item(sum, position);
    }
    sum
}
