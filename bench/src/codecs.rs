//! Frames and chunks of 16 bytes each with their number before them, and lines that a server answers. They are read
//! from a slice, so that the reads of other cases keep their one caller, into which they are inlined.

use crate::bytes::blocks_len;
use crate::fault::Fault;
use crate::texts::{repeated, text};
use bytes::BytesMut;
use framed::{
    Answer, CutError, Delimiter, FrameError, FramedRead, Frames, FramesError, LengthDelimited,
    LineDelimited, Service, find_delimiter, read_hexadecimal, serve, strip_return, take_body,
};
use futures_lite::future::BlockOn;
use futures_lite::io::AsyncReadExt;
use futures_lite::{Context, Future, Poll, StreamExt};
use serving::{Responder, Serving, wait_serving};
use std::alloc::{AllocError, AllocGlobal, Global};
use std::random::RandomSource;
use std::sync::Wait;

/// A value with its number.
pub(crate) const VALUE: &[u8] = b"\0\0\0\x100123456789abcdef";

/// A chunk, as HTTP has them.
pub(crate) const CHUNK: &[u8] = b"10\r\n0123456789abcdef\r\n";

/// How many bytes may stand before the newline of a chunk's first line.
const HEAD: usize = 17;

/// How many bytes a value may have.
pub(crate) const MAX: u32 = 64;

/// How many bytes a line may have.
pub(crate) const LINE: usize = 1 << 10;

/// The bytes of all frames, without their numbers.
#[inline(never)]
pub(crate) fn values(alloc: Global, cx: &mut Context<'_>, n: u64) -> Result<u64, Fault> {
    let bytes = repeated(alloc, VALUE, n)?;
    let mut frames = FramedRead::new(alloc, bytes.as_slice(), LengthDelimited { max: MAX });
    let mut summing = frames.try_fold(0u64, |sum: u64, frame: BytesMut| {
        Ok::<u64, FrameError>(sum.wrapping_add(frame.len() as u64))
    });
    match summing.poll(cx) {
        Poll::Ready(Ok(sum)) => Ok(sum),
        _ => Err(Fault::Memory),
    }
}

/// As `values`, each frame lent from the bytes.
#[inline(never)]
pub(crate) fn lent_values(alloc: Global, cx: &mut Context<'_>, n: u64) -> Result<u64, Fault> {
    let bytes = repeated(alloc, VALUE, n)?;
    let mut frames = Frames::new(alloc, bytes.as_slice(), LengthDelimited { max: MAX });
    let mut sum = 0u64;
    for _ in 0..n {
        let Poll::Ready(Some(Ok(()))) = frames.poll_advance(cx) else {
            break;
        };
        sum = sum.wrapping_add(frames.frame().len() as u64);
    }
    Ok(sum)
}

/// As `values`, by two reads for each value.
#[inline(never)]
pub(crate) fn values_by_hand(alloc: Global, cx: &mut Context<'_>, n: u64) -> Result<u64, Fault> {
    let bytes = repeated(alloc, VALUE, n)?;
    let mut reader = bytes.as_slice();
    let mut sum = 0u64;
    for _ in 0..n {
        let Some(value) = read_value(alloc, &mut reader, cx)? else {
            break;
        };
        sum = sum.wrapping_add(value.len() as u64);
    }
    Ok(sum)
}

/// The next value of the reader, which is never pending.
fn read_value(
    alloc: Global,
    reader: &mut &[u8],
    cx: &mut Context<'_>,
) -> Result<Option<Vec<u8>>, Fault> {
    let mut number = [0u8; 4];
    let Poll::Ready(Ok(())) = reader.read_exact(&mut number).poll(cx) else {
        return Ok(None);
    };
    let number = u32::from_be_bytes(number);
    if number > MAX {
        return Ok(None);
    }
    let mut value = vec![in alloc; 0u8; number as usize]?;
    let Poll::Ready(Ok(())) = reader.read_exact(&mut value).poll(cx) else {
        return Ok(None);
    };
    Ok(Some(value))
}

/// Replies with the line.
#[derive(Drop)]
struct Echo;

impl Service for Echo {
    ghost use Rattle.std.specs.Prelude.{◌∷◌, [], true};
    ghost use Rattle.framed.specs.Services.{RefusesBy, RepliesBy};

    type Request = BytesMut;

    type Reply = BytesMut;

    type Error = FrameError;

    ghost answers = { RepliesBy (λ line. (line ∷ [], true)) };

    ghost refuses = { RefusesBy (λ s. s) (λ _. []) };

    fn answer(&mut self, alloc: Global, line: BytesMut) -> Result<Answer<BytesMut>, AllocError> {
        let replies = Vec::from_array(alloc, [line])?;
        Ok(Answer {
            replies,
            goes_on: true,
        })
    }

    fn refuse(&mut self, alloc: Global, _: &FrameError) -> Result<Vec<BytesMut>, AllocError> {
        Ok(Vec::new(alloc))
    }
}

/// So many lines to a server, which replies into a vector with room for the replies.
#[inline(never)]
pub(crate) fn served_lines<R>(rt: &R, n: u64) -> Result<u64, Fault>
where
    R: Wait + RandomSource + AllocGlobal,
{
    let bytes = text(rt.alloc(), n)?;
    let mut requests = FramedRead::new(rt.alloc(), bytes.as_slice(), LineDelimited { max: LINE });
    let mut replies = Vec::with_capacity(rt.alloc(), blocks_len(n)? as usize)?;
    let mut on = BlockOn::new(rt)?;
    let mut encoder = LineDelimited { max: LINE };
    match serve(&mut on, rt, &mut requests, &mut replies, &mut encoder, &mut Echo) {
        Ok(()) => Ok(replies.len() as u64),
        Err(_refused) => Err(Fault::Memory),
    }
}

impl Responder for Echo {
    ghost use Rattle.std.specs.Prelude.{◌∷◌, ◌++◌, [], true};
    ghost use Rattle.framed.specs.Services.{RefusesBy, RepliesBy};

    type Error = CutError;

    ghost answers = { RepliesBy (λ line. (line ++ 10 ∷ [], true)) };

    ghost refuses = { RefusesBy (λ s. s) (λ _. []) };

    fn answer(&mut self, line: &[u8], out: &mut Vec<u8>) -> Result<bool, AllocError> {
        out.extend_from_slice(line)?;
        out.push(b'\n')?;
        Ok(true)
    }

    fn refuse(&mut self, _: &FramesError<CutError>, _: &mut Vec<u8>) -> Result<(), AllocError> {
        Ok(())
    }
}

/// As `served_lines`, each line lent from the bytes.
#[inline(never)]
pub(crate) fn served_lent_lines<R>(rt: &R, n: u64) -> Result<u64, Fault>
where
    R: Wait + RandomSource + AllocGlobal,
{
    let bytes = text(rt.alloc(), n)?;
    let replies = Vec::with_capacity(rt.alloc(), blocks_len(n)? as usize)?;
    let lines = LineDelimited { max: LINE };
    let mut serving = Serving::new(rt.alloc(), bytes.as_slice(), lines, replies, Echo);
    let mut on = BlockOn::new(rt)?;
    match wait_serving(&mut on, rt, &mut serving) {
        Ok(()) => Ok(serving.into_parts().replies.len() as u64),
        Err(_refused) => Err(Fault::Memory),
    }
}

/// Chunks with their length in hexadecimal digits before them, cut by the parts of a codec.
#[inline(never)]
pub(crate) fn chunks(alloc: Global, n: u64) -> Result<u64, Fault> {
    let bytes = repeated(alloc, CHUNK, n)?;
    let mut left = BytesMut::copy_from_slice(alloc, &bytes)?;
    let mut sum = 0u64;
    for _ in 0..n {
        let Delimiter::At(at) = find_delimiter(left.as_slice(), b'\n', HEAD) else {
            break;
        };
        let Some(head) = strip_return(&left.as_slice()[..at]) else {
            break;
        };
        let Some(length) = read_hexadecimal(head) else {
            break;
        };
        let Ok(Some(body)) = take_body(&mut left, at + 1, length, b"\r\n") else {
            break;
        };
        sum = sum.wrapping_add(body.len() as u64);
    }
    Ok(sum)
}
