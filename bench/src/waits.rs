//! Calls that wait, `n` of each, with one `Waits` for all.

use crate::bytes::{BLOCK, blocks_len};
use crate::codecs::{LINE, MAX, VALUE};
use crate::fault::Fault;
use crate::texts::{repeated, text};
use bytes::BytesMut;
use framed::{FramedRead, LengthDelimited, collect_frames, wait_frame, wait_send, wait_send_all};
use futures_lite::future::BlockOn;
use futures_lite::io::{
    Cursor, wait_flush, wait_read, wait_read_exact, wait_read_until, wait_read_until_limited,
    wait_write_all,
};
use std::alloc::AllocGlobal;
use std::random::RandomSource;
use std::sync::Wait;

/// So many blocks, each by one read.
#[inline(never)]
pub(crate) fn read<R>(rt: &R, n: u64) -> Result<u64, Fault>
where
    R: Wait + RandomSource + AllocGlobal,
{
    let bytes = text(rt.alloc(), n)?;
    let mut reader = bytes.as_slice();
    let mut on = BlockOn::new(rt)?;
    let mut waits = on.waits();
    let mut block = [0u8; BLOCK as usize];
    let mut sum = 0u64;
    for _ in 0..n {
        let Ok(count) = wait_read(&mut waits, rt, &mut reader, &mut block)? else {
            break;
        };
        sum = sum.wrapping_add(count as u64);
    }
    Ok(sum)
}

/// So many blocks, each read until it is full.
#[inline(never)]
pub(crate) fn read_exact<R>(rt: &R, n: u64) -> Result<u64, Fault>
where
    R: Wait + RandomSource + AllocGlobal,
{
    let bytes = text(rt.alloc(), n)?;
    let mut reader = bytes.as_slice();
    let mut on = BlockOn::new(rt)?;
    let mut waits = on.waits();
    let mut block = [0u8; BLOCK as usize];
    let mut sum = 0u64;
    for _ in 0..n {
        let Ok(()) = wait_read_exact(&mut waits, rt, &mut reader, &mut block)? else {
            break;
        };
        sum = sum.wrapping_add(block[0] as u64);
    }
    Ok(sum)
}

/// So many lines into one vector, which is emptied before each.
#[inline(never)]
pub(crate) fn read_until<R>(rt: &R, n: u64) -> Result<u64, Fault>
where
    R: Wait + RandomSource + AllocGlobal,
{
    let bytes = text(rt.alloc(), n)?;
    let mut reader = bytes.as_slice();
    let mut on = BlockOn::new(rt)?;
    let mut waits = on.waits();
    let mut line = Vec::new(rt.alloc());
    let mut sum = 0u64;
    for _ in 0..n {
        line.clear();
        let Ok(count) = wait_read_until(&mut waits, rt, &mut reader, b'\n', &mut line)? else {
            break;
        };
        sum = sum.wrapping_add(count as u64);
    }
    Ok(sum)
}

/// As `read_until`, with a limit.
#[inline(never)]
pub(crate) fn read_until_limited<R>(rt: &R, n: u64) -> Result<u64, Fault>
where
    R: Wait + RandomSource + AllocGlobal,
{
    let bytes = text(rt.alloc(), n)?;
    let mut reader = bytes.as_slice();
    let mut on = BlockOn::new(rt)?;
    let mut waits = on.waits();
    let mut line = Vec::new(rt.alloc());
    let mut sum = 0u64;
    for _ in 0..n {
        line.clear();
        let read = wait_read_until_limited(&mut waits, rt, &mut reader, b'\n', LINE as u64, &mut line)?;
        let Ok(count) = read else {
            break;
        };
        sum = sum.wrapping_add(count as u64);
    }
    Ok(sum)
}

/// So many blocks into a vector with room for them, with a flush behind each.
#[inline(never)]
pub(crate) fn write_all<R>(rt: &R, n: u64) -> Result<u64, Fault>
where
    R: Wait + RandomSource + AllocGlobal,
{
    let mut on = BlockOn::new(rt)?;
    let mut waits = on.waits();
    let mut bytes = Vec::with_capacity(rt.alloc(), blocks_len(n)? as usize)?;
    for i in 0..n {
        let block = [(i & 255) as u8; BLOCK as usize];
        let Ok(()) = wait_write_all(&mut waits, rt, &mut bytes, &block)? else {
            break;
        };
        let Ok(()) = wait_flush(&mut waits, rt, &mut bytes)? else {
            break;
        };
    }
    Ok(bytes.len() as u64)
}

/// The bytes of so many frames, without their numbers.
#[inline(never)]
pub(crate) fn frames<R>(rt: &R, n: u64) -> Result<u64, Fault>
where
    R: Wait + RandomSource + AllocGlobal,
{
    let bytes = repeated(rt.alloc(), VALUE, n)?;
    let mut on = BlockOn::new(rt)?;
    let mut waits = on.waits();
    let mut frames = FramedRead::new(rt.alloc(), bytes.as_slice(), LengthDelimited { max: MAX });
    let mut sum = 0u64;
    for _ in 0..n {
        let Some(Ok(frame)) = wait_frame(&mut waits, rt, &mut frames) else {
            break;
        };
        sum = sum.wrapping_add(frame.len() as u64);
    }
    Ok(sum)
}

/// So many values, each sent as a frame into a vector with room for them.
#[inline(never)]
pub(crate) fn sends<R>(rt: &R, n: u64) -> Result<u64, Fault>
where
    R: Wait + RandomSource + AllocGlobal,
{
    let mut out = BytesMut::new(rt.alloc());
    let mut on = BlockOn::new(rt)?;
    let mut waits = on.waits();
    let mut bytes = Vec::with_capacity(rt.alloc(), (blocks_len(n)? as usize).saturating_mul(2))?;
    let mut encoder = LengthDelimited { max: MAX };
    for i in 0..n {
        let block = [(i & 255) as u8; BLOCK as usize];
        let sent = wait_send(&mut waits, rt, &mut bytes, &mut encoder, block.as_slice(), &mut out);
        if sent.is_err() {
            break;
        }
    }
    Ok(bytes.len() as u64)
}

/// The bytes of so many frames, without their numbers, all of which one call collects.
#[inline(never)]
pub(crate) fn all_frames<R>(rt: &R, n: u64) -> Result<u64, Fault>
where
    R: Wait + RandomSource + AllocGlobal,
{
    let bytes = repeated(rt.alloc(), VALUE, n)?;
    let mut on = BlockOn::new(rt)?;
    let reader = Cursor::new(bytes.as_slice());
    let mut frames = FramedRead::new(rt.alloc(), reader, LengthDelimited { max: MAX });
    let mut collected = Vec::new(rt.alloc());
    match collect_frames(&mut on.waits(), rt, &mut frames, &mut collected) {
        Ok(()) => Ok(
            collected.iter().fold(
                0,
                |sum: u64, frame: &BytesMut| sum.wrapping_add(frame.len() as u64),
            ),
        ),
        Err(_refused) => Err(Fault::Memory),
    }
}

/// So many values, made first and sent by one call, into a vector with room for their frames.
#[inline(never)]
pub(crate) fn sends_all<R>(rt: &R, n: u64) -> Result<u64, Fault>
where
    R: Wait + RandomSource + AllocGlobal,
{
    let (mut on, mut out) = (BlockOn::new(rt)?, BytesMut::new(rt.alloc()));
    let mut bytes = Vec::with_capacity(rt.alloc(), (blocks_len(n)? as usize).saturating_mul(2))?;
    let blocks: Vec<[u8; BLOCK as usize]> = (0..n)
        .map(|i: u64| [(i & 255) as u8; BLOCK as usize])
        .collect(rt.alloc())?;
    let mut encoder = LengthDelimited { max: MAX };
    match wait_send_all(&mut on, rt, &mut bytes, &mut encoder, blocks, &mut out) {
        Ok(()) => Ok(bytes.len() as u64),
        Err(_refused) => Err(Fault::Memory),
    }
}
