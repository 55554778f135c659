//! Cases of readers.
use crate::io_calls::{goes_on, polled, read_poll, room_of};
use crate::io_run::{Run, Spelled};
use crate::io_words::{bytes_of, text_of};
use crate::readers::{BuildReader, Nest};
use crate::words::{Fault, Words};
use futures_lite::io::{AsyncRead, IoSliceMut};
use futures_lite::stream::Stream;
use futures_lite::{AsyncReadExt, Poll};
use std::io;

/// Runs a case of one of these modes; `false`: `mode` is none of them.
pub(crate) fn answered(
    mode: &str,
    run: &mut Run<'_, '_>,
    words: &mut Words<'_>,
) -> Result<bool, Fault> {
    match mode {
        "read" => read(run, words)?,
        "readv" => read_vectored(run, words)?,
        "exact" => exact(run, words)?,
        "filled" => filled(run, words)?,
        "end" => end(run, words)?,
        "end_onto" => end_onto(run, words)?,
        "string" => string(run, words)?,
        "string_onto" => string_onto(run, words)?,
        "bytes" => bytes(run, words)?,
        "reads" => reads(run, words)?,
        _ => return Ok(false),
    }
    Ok(true)
}

/// `read SIZE NEST`: reads of so much room.
fn read(run: &mut Run<'_, '_>, words: &mut Words<'_>) -> Result<(), Fault> {
    let mut room = room_of(run, words)?;
    let mut reader = Nest::build(run.alloc, words)?;
    while run.has_polls() {
        read_once(run, &mut reader, room.as_mut_slice())?;
    }
    Ok(())
}

/// The future of one read.
pub(crate) fn read_once<R: AsyncRead>(
    run: &mut Run<'_, '_>,
    reader: &mut R,
    room: &mut [u8],
) -> Result<(), Fault> {
    match run.finish(&mut reader.read(&mut *room))? {
        Some(read) => run.read(read, room),
        None => Ok(()),
    }
}

/// `readv SIZE SIZE NEST`: vectored reads of so much room.
fn read_vectored(run: &mut Run<'_, '_>, words: &mut Words<'_>) -> Result<(), Fault> {
    let mut first = room_of(run, words)?;
    let mut second = room_of(run, words)?;
    let mut reader = Nest::build(run.alloc, words)?;
    while run.has_polls() {
        let read = {
            let mut bufs = [
                IoSliceMut::new(first.as_mut_slice()),
                IoSliceMut::new(second.as_mut_slice()),
            ];
            run.finish(&mut reader.read_vectored(&mut bufs))?
        };
        if let Some(read) = read {
            run.read_both(read, first.as_slice(), second.as_slice())?;
        }
    }
    Ok(())
}

/// `exact SIZE NEST`: reads that fill so much room.
fn exact(run: &mut Run<'_, '_>, words: &mut Words<'_>) -> Result<(), Fault> {
    let mut room = room_of(run, words)?;
    let mut reader = Nest::build(run.alloc, words)?;
    while run.has_polls() {
        exact_once(run, &mut reader, room.as_mut_slice())?;
    }
    Ok(())
}

/// The future of one read that fills `room`.
pub(crate) fn exact_once<R: AsyncRead>(
    run: &mut Run<'_, '_>,
    reader: &mut R,
    room: &mut [u8],
) -> Result<(), Fault> {
    match run.finish(&mut reader.read_exact(&mut *room))? {
        Some(Ok(())) => run.bytes(room),
        Some(Err(e)) => run.kind(e.kind()),
        None => Ok(()),
    }
}

/// `filled SIZE NEST`: the same, where all of the room is shown after each, after an error too; `-` stands where nothing was read.
fn filled(run: &mut Run<'_, '_>, words: &mut Words<'_>) -> Result<(), Fault> {
    let blank = room_of(run, words)?;
    let mut reader = Nest::build(run.alloc, words)?;
    while run.has_polls() {
        let mut room = blank.clone()?;
        let read = run.finish(&mut reader.read_exact(room.as_mut_slice()))?;
        run.given(read)?;
        run.bytes(room.as_slice())?;
    }
    Ok(())
}

/// `end NEST`: reads to the end into one vector, which is shown at last.
fn end(run: &mut Run<'_, '_>, words: &mut Words<'_>) -> Result<(), Fault> {
    let mut reader = Nest::build(run.alloc, words)?;
    let mut all = Vec::new(run.alloc);
    while run.has_polls() {
        let read = run.finish(&mut reader.read_to_end(&mut all))?;
        run.given(read)?;
    }
    run.bytes(all.as_slice())
}

/// `end_onto HEX NEST`: reads to the end behind these bytes; what stands in the vector is shown after each.
fn end_onto(run: &mut Run<'_, '_>, words: &mut Words<'_>) -> Result<(), Fault> {
    let mut all = bytes_of(run.alloc, words.take()?)?;
    let mut reader = Nest::build(run.alloc, words)?;
    while run.has_polls() {
        let read = run.finish(&mut reader.read_to_end(&mut all))?;
        run.given(read)?;
        run.bytes(all.as_slice())?;
    }
    Ok(())
}

/// `string NEST`: reads to the end, each into an empty text.
fn string(run: &mut Run<'_, '_>, words: &mut Words<'_>) -> Result<(), Fault> {
    let mut reader = Nest::build(run.alloc, words)?;
    while run.has_polls() {
        let mut text = String::new(run.alloc);
        if let Some(read) = run.finish(&mut reader.read_to_string(&mut text))? {
            run.bytes(text.as_bytes())?;
            run.value(read)?;
        }
    }
    Ok(())
}

/// `string_onto HEX NEST`: reads to the end behind this text; the text is shown after each.
fn string_onto(run: &mut Run<'_, '_>, words: &mut Words<'_>) -> Result<(), Fault> {
    let mut text = text_of(run.alloc, words.take()?)?;
    let mut reader = Nest::build(run.alloc, words)?;
    while run.has_polls() {
        let read = run.finish(&mut reader.read_to_string(&mut text))?;
        run.given(read)?;
        run.bytes(text.as_bytes())?;
    }
    Ok(())
}

/// `bytes NEST`: polls of the stream of the bytes.
fn bytes(run: &mut Run<'_, '_>, words: &mut Words<'_>) -> Result<(), Fault> {
    let mut bytes = Nest::build(run.alloc, words)?.bytes();
    while run.has_polls() {
        let answer = bytes.poll_next(run.poll());
        item(run, answer)?;
    }
    Ok(())
}

/// The answer of one poll of a stream; an end is `E`.
pub(crate) fn item<T: Spelled + Drop>(
    run: &mut Run<'_, '_>,
    answer: Poll<Option<io::Result<T>>>,
) -> Result<(), Fault> {
    match answer {
        Poll::Pending => run.word("P"),
        Poll::Ready(None) => run.word("E"),
        Poll::Ready(Some(value)) => polled(run, Poll::Ready(value)),
    }
}

/// `reads NEST CALL..`: one poll for each `r SIZE` and `rv SIZE SIZE`; `limit` and `set_limit N` of the outermost `take`.
fn reads(run: &mut Run<'_, '_>, words: &mut Words<'_>) -> Result<(), Fault> {
    let mut reader = Nest::build(run.alloc, words)?;
    while goes_on(run, words) {
        match words.take()? {
            "limit" => run.number(reader.limit()?)?,
            "set_limit" => reader.set_limit(words.number()? as u64)?,
            word => {
                if !read_poll(run, &mut reader, word, words)? {
                    return Err(Fault::Words);
                }
            }
        }
    }
    Ok(())
}
