//! Waits, `n` of each, each by a `block_on`; and frames by hand.

use crate::bytes::BLOCK;
use crate::codecs::{LINE, MAX, VALUE};
use crate::texts::{repeated, text};
use futures_lite::future::block_on;
use futures_lite::io::{self, AsyncBufReadExt, AsyncReadExt, AsyncWriteExt, Cursor};

/// So many blocks, each by one read.
#[inline(never)]
pub fn read(n: u64) -> u64 {
    let bytes = text(n);
    let mut reader = bytes.as_slice();
    let mut block = [0u8; BLOCK as usize];
    let mut sum = 0u64;
    for _ in 0..n {
        let Ok(count) = block_on(reader.read(&mut block)) else {
            break;
        };
        sum = sum.wrapping_add(count as u64);
    }
    sum
}

/// So many blocks, each read until it is full.
#[inline(never)]
pub fn read_exact(n: u64) -> u64 {
    let bytes = text(n);
    let mut reader = bytes.as_slice();
    let mut block = [0u8; BLOCK as usize];
    let mut sum = 0u64;
    for _ in 0..n {
        let Ok(()) = block_on(reader.read_exact(&mut block)) else {
            break;
        };
        sum = sum.wrapping_add(block[0] as u64);
    }
    sum
}

/// So many lines into one vector, which is emptied before each.
#[inline(never)]
pub fn read_until(n: u64) -> u64 {
    let bytes = text(n);
    let mut reader = bytes.as_slice();
    let mut line = Vec::new();
    let mut sum = 0u64;
    for _ in 0..n {
        line.clear();
        let Ok(count) = block_on(reader.read_until(b'\n', &mut line)) else {
            break;
        };
        sum = sum.wrapping_add(count as u64);
    }
    sum
}

/// As `read_until`, with a limit.
#[inline(never)]
pub fn read_until_limited(n: u64) -> u64 {
    let bytes = text(n);
    let mut reader = bytes.as_slice();
    let mut line = Vec::new();
    let mut sum = 0u64;
    for _ in 0..n {
        line.clear();
        let Ok(count) = block_on((&mut reader).take(LINE as u64).read_until(b'\n', &mut line)) else {
            break;
        };
        sum = sum.wrapping_add(count as u64);
    }
    sum
}

/// So many blocks into a vector with room for them, with a flush behind each.
#[inline(never)]
pub fn write_all(n: u64) -> u64 {
    let mut bytes = Vec::with_capacity((n * BLOCK) as usize);
    for i in 0..n {
        let block = [(i & 255) as u8; BLOCK as usize];
        let Ok(()) = block_on(bytes.write_all(&block)) else {
            break;
        };
        let Ok(()) = block_on(bytes.flush()) else {
            break;
        };
    }
    bytes.len() as u64
}

/// The bytes of so many frames, without their numbers.
#[inline(never)]
pub fn frames(n: u64) -> u64 {
    let bytes = repeated(VALUE, n);
    let mut reader = bytes.as_slice();
    let mut sum = 0u64;
    for _ in 0..n {
        let mut number = [0u8; 4];
        let Ok(()) = block_on(reader.read_exact(&mut number)) else {
            break;
        };
        let number = u32::from_be_bytes(number);
        if number > MAX {
            break;
        }
        let mut frame = vec![0u8; number as usize];
        let Ok(()) = block_on(reader.read_exact(&mut frame)) else {
            break;
        };
        sum = sum.wrapping_add(frame.len() as u64);
    }
    sum
}

/// So many values, each sent as a frame into a vector with room for them.
#[inline(never)]
pub fn sends(n: u64) -> u64 {
    let mut bytes = Vec::with_capacity((n * BLOCK) as usize * 2);
    let mut out = Vec::new();
    for i in 0..n {
        let block = [(i & 255) as u8; BLOCK as usize];
        out.clear();
        out.extend_from_slice(&(block.len() as u32).to_be_bytes());
        out.extend_from_slice(&block);
        let Ok(()) = block_on(bytes.write_all(&out)) else {
            break;
        };
    }
    bytes.len() as u64
}

/// The bytes of so many frames, without their numbers, all of which one wait collects.
#[inline(never)]
pub fn all_frames(n: u64) -> u64 {
    let bytes = repeated(VALUE, n);
    match block_on(collect(Cursor::new(&bytes))) {
        Ok(frames) => frames.iter().fold(0, |sum: u64, frame: &Vec<u8>| sum.wrapping_add(frame.len() as u64)),
        Err(_) => 0,
    }
}

async fn collect(mut reader: Cursor<&[u8]>) -> io::Result<Vec<Vec<u8>>> {
    let mut frames = Vec::new();
    while !reader.fill_buf().await?.is_empty() {
        let mut number = [0u8; 4];
        reader.read_exact(&mut number).await?;
        let number = u32::from_be_bytes(number);
        if number > MAX {
            return Err(io::ErrorKind::InvalidData.into());
        }
        let mut frame = vec![0u8; number as usize];
        reader.read_exact(&mut frame).await?;
        frames.push(frame);
    }
    Ok(frames)
}

/// So many values, made first and sent by one wait, into a vector with room for their frames.
#[inline(never)]
pub fn sends_all(n: u64) -> u64 {
    let mut bytes = Vec::with_capacity((n * BLOCK) as usize * 2);
    let mut blocks = Vec::with_capacity(n as usize);
    for i in 0..n {
        blocks.push([(i & 255) as u8; BLOCK as usize]);
    }
    let mut out = Vec::new();
    for block in blocks {
        out.extend_from_slice(&(block.len() as u32).to_be_bytes());
        out.extend_from_slice(&block);
    }
    match block_on(bytes.write_all(&out)) {
        Ok(()) => bytes.len() as u64,
        Err(_) => 0,
    }
}
