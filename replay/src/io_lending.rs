//! Cases of readers that lend: lines, pieces, texts, and what is lent.
use crate::io_calls::{goes_on, read_poll, room_of};
use crate::io_reading::{exact_once, item, read_once};
use crate::io_run::Run;
use crate::io_words::{byte_of, bytes_of, text_of};
use crate::lenders::Lender;
use crate::readers::{BuildReader, Nest};
use crate::words::{Fault, Words};
use bytes::BytesMut;
use framed::{FrameError, FramedRead, LengthDelimited, LineDelimited, PromptDecoder};
use futures_lite::io::{AsyncBufRead, AsyncRead, BufReader, CountedRead, ErrorKind};
use futures_lite::laws::{CollectLinesFuture, collect_buffered_lines, collect_lines};
use futures_lite::stream::{Stream, TryCollectError};
use futures_lite::{AsyncBufReadExt, Poll, StreamExt};
use std::io;
use tokio_util::codec::{LinesCodec, LinesCodecError};

/// Runs a case of one of these modes; `false`: `mode` is none of them.
pub(crate) fn answered(
    mode: &str,
    run: &mut Run<'_, '_>,
    words: &mut Words<'_>,
) -> Result<bool, Fault> {
    match mode {
        "until" => until(run, words)?,
        "until_onto" => until_onto(run, words)?,
        "line" => line(run, words)?,
        "line_onto" => line_onto(run, words)?,
        "lines" => lines(run, words)?,
        "split" => split(run, words)?,
        "pieces" => pieces(run, words)?,
        "frames" => frames(run, words)?,
        "whole_lines" => whole_lines(run, words)?,
        "framed_lines" => framed_lines(run, words)?,
        "fill" => fill(run, words)?,
        "mixed" => mixed(run, words)?,
        "lends" => lends(run, words)?,
        "collect" => collect(run, words)?,
        "collectbuf" => collect_rest(run, words)?,
        _ => return Ok(false),
    }
    Ok(true)
}

/// `until BYTE LENDER`: reads up to a byte, each into an empty vector.
fn until(run: &mut Run<'_, '_>, words: &mut Words<'_>) -> Result<(), Fault> {
    let byte = byte_of(words)?;
    let mut reader = Lender::build(run.alloc, words)?;
    while run.has_polls() {
        until_once(run, &mut reader, byte)?;
    }
    Ok(())
}

/// The future of one read up to a byte.
pub(crate) fn until_once<R: AsyncBufRead + CountedRead>(
    run: &mut Run<'_, '_>,
    reader: &mut R,
    byte: u8,
) -> Result<(), Fault> {
    let mut piece = Vec::new(run.alloc);
    if let Some(read) = run.finish(&mut reader.read_until(byte, &mut piece))? {
        run.bytes(piece.as_slice())?;
        run.value(read)?;
    }
    Ok(())
}

/// `until_onto HEX BYTE LENDER`: reads up to a byte behind these; what stands in the vector is shown after each.
fn until_onto(run: &mut Run<'_, '_>, words: &mut Words<'_>) -> Result<(), Fault> {
    let mut all = bytes_of(run.alloc, words.take()?)?;
    let byte = byte_of(words)?;
    let mut reader = Lender::build(run.alloc, words)?;
    while run.has_polls() {
        let read = run.finish(&mut reader.read_until(byte, &mut all))?;
        run.given(read)?;
        run.bytes(all.as_slice())?;
    }
    Ok(())
}

/// `line LENDER`: reads of a line, each into an empty text.
fn line(run: &mut Run<'_, '_>, words: &mut Words<'_>) -> Result<(), Fault> {
    let mut reader = Lender::build(run.alloc, words)?;
    while run.has_polls() {
        let mut text = String::new(run.alloc);
        if let Some(read) = run.finish(&mut reader.read_line(&mut text))? {
            run.bytes(text.as_bytes())?;
            run.value(read)?;
        }
    }
    Ok(())
}

/// `line_onto HEX LENDER`: reads of a line behind this text; the text is shown after each.
fn line_onto(run: &mut Run<'_, '_>, words: &mut Words<'_>) -> Result<(), Fault> {
    let mut text = text_of(run.alloc, words.take()?)?;
    let mut reader = Lender::build(run.alloc, words)?;
    while run.has_polls() {
        let read = run.finish(&mut reader.read_line(&mut text))?;
        run.given(read)?;
        run.bytes(text.as_bytes())?;
    }
    Ok(())
}

/// `lines LENDER`: polls of the stream of the lines.
fn lines(run: &mut Run<'_, '_>, words: &mut Words<'_>) -> Result<(), Fault> {
    let mut lines = Lender::build(run.alloc, words)?.lines(run.alloc);
    while run.has_polls() {
        let answer = lines.poll_next(run.poll());
        item(run, answer)?;
    }
    Ok(())
}

/// `split BYTE LENDER`: polls of the stream of the pieces.
fn split(run: &mut Run<'_, '_>, words: &mut Words<'_>) -> Result<(), Fault> {
    let byte = byte_of(words)?;
    let mut pieces = Lender::build(run.alloc, words)?.split(run.alloc, byte);
    while run.has_polls() {
        let answer = pieces.poll_next(run.poll());
        item(run, answer)?;
    }
    Ok(())
}

/// `pieces BYTE LENDER`: the pieces, collected.
fn pieces(run: &mut Run<'_, '_>, words: &mut Words<'_>) -> Result<(), Fault> {
    let byte = byte_of(words)?;
    let pieces = Lender::build(run.alloc, words)?.split(run.alloc, byte);
    let mut future = pieces.try_collect::<Vec<u8>, io::Error, Vec<Vec<u8>>>(run.alloc);
    match run.finish(&mut future)? {
        None => Ok(()),
        Some(Ok(pieces)) => {
            run.part("[")?;
            for piece in &pieces {
                run.bytes(piece.as_slice())?;
            }
            run.word("]")
        }
        Some(Err(TryCollectError::Source(e))) => run.kind(e.kind()),
        Some(Err(TryCollectError::Memory(_))) => Err(Fault::Memory),
    }
}

/// `frames MOST LENDER`: polls of the stream of frames with their length, at most so many bytes, before them.
fn frames(run: &mut Run<'_, '_>, words: &mut Words<'_>) -> Result<(), Fault> {
    let max = u32::try_from(words.number()?).map_err(|_| Fault::Words)?;
    let lender = Lender::build(run.alloc, words)?;
    polled_frames(run, FramedRead::new(run.alloc, lender, LengthDelimited { max }))
}

/// `whole_lines MOST LENDER`: polls of the stream of lines that end with a newline, of at most so many bytes.
fn whole_lines(run: &mut Run<'_, '_>, words: &mut Words<'_>) -> Result<(), Fault> {
    let max = words.number()?;
    let lender = Lender::build(run.alloc, words)?;
    polled_frames(run, FramedRead::new(run.alloc, lender, LineDelimited { max }))
}

fn polled_frames<D>(run: &mut Run<'_, '_>, mut frames: FramedRead<Lender, D>) -> Result<(), Fault>
where
    D: PromptDecoder<Item = BytesMut, Error = FrameError> + Drop,
{
    while run.has_polls() {
        match frames.poll_next(run.poll()) {
            Poll::Pending => run.word("P")?,
            Poll::Ready(None) => run.word("E")?,
            Poll::Ready(Some(Ok(frame))) => run.bytes(frame.as_slice())?,
            Poll::Ready(Some(Err(FrameError::TooLong(_)))) => run.word("!TooLong")?,
            Poll::Ready(Some(Err(FrameError::CutOff))) => run.word("!CutOff")?,
            Poll::Ready(Some(Err(FrameError::Io(e)))) => run.kind(e.kind())?,
            Poll::Ready(Some(Err(_))) => run.word("!Encoder")?,
        }
    }
    Ok(())
}

/// `framed_lines MOST LENDER`: polls of the stream of lines of at most so many bytes.
fn framed_lines(run: &mut Run<'_, '_>, words: &mut Words<'_>) -> Result<(), Fault> {
    let codec = LinesCodec::new_with_max_length(words.number()?);
    let lender = Lender::build(run.alloc, words)?;
    let mut lines = FramedRead::new(run.alloc, lender, codec);
    while run.has_polls() {
        match lines.poll_next(run.poll()) {
            Poll::Pending => run.word("P")?,
            Poll::Ready(None) => run.word("E")?,
            Poll::Ready(Some(Ok(line))) => run.bytes(line.as_bytes())?,
            Poll::Ready(Some(Err(LinesCodecError::MaxLineLengthExceeded))) => run.word("!TooLong")?,
            Poll::Ready(Some(Err(LinesCodecError::Io(e)))) => run.kind(e.kind())?,
        }
    }
    Ok(())
}

/// `fill MOST LENDER`: polls of a fill, of which at most so many bytes are then taken.
fn fill(run: &mut Run<'_, '_>, words: &mut Words<'_>) -> Result<(), Fault> {
    let most = words.number()?;
    let mut reader = Lender::build(run.alloc, words)?;
    while run.has_polls() {
        let lent = fill_poll(run, &mut reader)?;
        reader.consume(lent.min(most));
    }
    Ok(())
}

/// One poll of a fill, and how many bytes it lends.
fn fill_poll(run: &mut Run<'_, '_>, reader: &mut Lender) -> Result<usize, Fault> {
    match reader.poll_fill_buf(run.poll()) {
        Poll::Pending => {
            run.word("P")?;
            Ok(0)
        }
        Poll::Ready(Ok(bytes)) => {
            run.bytes(bytes)?;
            Ok(bytes.len())
        }
        Poll::Ready(Err(e)) => {
            run.kind(e.kind())?;
            Ok(0)
        }
    }
}

/// The future of a fill.
fn fill_once(run: &mut Run<'_, '_>, reader: &mut Lender) -> Result<(), Fault> {
    match run.finish(&mut reader.fill_buf())? {
        Some(Ok(lent)) => run.bytes(lent),
        Some(Err(e)) => run.kind(e.kind()),
        None => Ok(()),
    }
}

/// `mixed SIZE LENDER`: in turn a read of so much room, and one up to a newline.
fn mixed(run: &mut Run<'_, '_>, words: &mut Words<'_>) -> Result<(), Fault> {
    let mut room = room_of(run, words)?;
    let mut reader = Lender::build(run.alloc, words)?;
    while run.has_polls() {
        read_once(run, &mut reader, room.as_mut_slice())?;
        until_once(run, &mut reader, b'\n')?;
    }
    Ok(())
}

/// `lends LENDER CALL..`: one poll for each `r SIZE`, `rv SIZE SIZE` and `lend`; `k N` takes at most so many of the bytes that are
/// lent, `b` shows them; `fill`, `x SIZE` and `u BYTE` are the futures of a fill, of an exact read and of one up to a byte; `limit` and
/// `set_limit N` are of the outermost `take`.
fn lends(run: &mut Run<'_, '_>, words: &mut Words<'_>) -> Result<(), Fault> {
    let mut reader = Lender::build(run.alloc, words)?;
    while goes_on(run, words) {
        match words.take()? {
            "limit" => run.number(reader.limit()?)?,
            "set_limit" => reader.set_limit(words.number()? as u64)?,
            "b" => run.bytes(reader.buffer())?,
            "k" => {
                let lent = reader.buffer().len();
                reader.consume(words.number()?.min(lent));
            }
            "lend" => {
                fill_poll(run, &mut reader)?;
            }
            "fill" => fill_once(run, &mut reader)?,
            "x" => {
                let mut room = room_of(run, words)?;
                exact_once(run, &mut reader, room.as_mut_slice())?;
            }
            "u" => {
                let byte = byte_of(words)?;
                until_once(run, &mut reader, byte)?;
            }
            word => {
                if !read_poll(run, &mut reader, word, words)? {
                    return Err(Fault::Words);
                }
            }
        }
    }
    Ok(())
}

/// `collect LIMIT NEST`: the lines of the first bytes, collected.
fn collect(run: &mut Run<'_, '_>, words: &mut Words<'_>) -> Result<(), Fault> {
    let limit = words.number()? as u64;
    let reader = Nest::build(run.alloc, words)?;
    match collect_lines(run.alloc, reader, limit, run.alloc) {
        Ok(future) => collected(run, future),
        Err(_) => Err(Fault::Memory),
    }
}

/// `collectbuf CAPACITY SIZE LIMIT NEST`: a read from a buffered reader, and then the lines of the first bytes of what is left of it.
fn collect_rest(run: &mut Run<'_, '_>, words: &mut Words<'_>) -> Result<(), Fault> {
    let capacity = words.number()?;
    let mut room = room_of(run, words)?;
    let limit = words.number()? as u64;
    let nest = Nest::build(run.alloc, words)?;
    let Ok(mut reader) = BufReader::with_capacity(run.alloc, capacity, nest) else {
        return Err(Fault::Memory);
    };
    match reader.poll_read(run.poll(), room.as_mut_slice()) {
        Poll::Pending => run.word("P")?,
        Poll::Ready(read) => run.read(read, room.as_slice())?,
    }
    let future = collect_buffered_lines(run.alloc, reader, limit, run.alloc);
    collected(run, future)
}

fn collected<R: CountedRead + Drop>(
    run: &mut Run<'_, '_>,
    mut future: CollectLinesFuture<R, Vec<String>>,
) -> Result<(), Fault> {
    match run.finish(&mut future)? {
        None => Ok(()),
        Some(Ok(lines)) => {
            run.part("[")?;
            for line in &lines {
                run.bytes(line.as_bytes())?;
            }
            run.word("]")
        }
        Some(Err(TryCollectError::Source(e))) => run.kind(e.kind()),
        Some(Err(TryCollectError::Memory(_))) => Err(Fault::Memory),
    }
}
