//! Calls of readers, writers and seekers, each named by a word.
use crate::io_run::{Run, Spelled};
use crate::io_words::{bytes_of, place_of};
use crate::words::{Fault, Words};
use futures_lite::io::{AsyncRead, AsyncSeek, AsyncWrite, IoSlice, IoSliceMut};
use futures_lite::{AsyncSeekExt, AsyncWriteExt, Poll};
use std::io;

// The most bytes that one read has room for.
const ROOM: usize = 64;

// What stands in a room before a read.
const BLANK: u8 = b'-';

/// A room of the size that the next word names.
pub(crate) fn room_of(run: &Run<'_, '_>, words: &mut Words<'_>) -> Result<Vec<u8>, Fault> {
    Ok(vec![in run.alloc; BLANK; words.number()?.min(ROOM)]?)
}

/// The answer of one poll; a pending is `P`.
pub(crate) fn polled<T: Spelled + Drop>(
    run: &mut Run<'_, '_>,
    answer: Poll<io::Result<T>>,
) -> Result<(), Fault> {
    match answer {
        Poll::Pending => run.word("P"),
        Poll::Ready(value) => run.value(value),
    }
}

/// One poll of `r SIZE` or `rv SIZE SIZE`; `false`: `word` is neither.
pub(crate) fn read_poll<R: AsyncRead>(
    run: &mut Run<'_, '_>,
    reader: &mut R,
    word: &str,
    words: &mut Words<'_>,
) -> Result<bool, Fault> {
    match word {
        "r" => {
            let mut room = room_of(run, words)?;
            match reader.poll_read(run.poll(), room.as_mut_slice()) {
                Poll::Pending => run.word("P")?,
                Poll::Ready(read) => run.read(read, room.as_slice())?,
            }
        }
        "rv" => {
            let mut first = room_of(run, words)?;
            let mut second = room_of(run, words)?;
            let answer = {
                let mut bufs = [
                    IoSliceMut::new(first.as_mut_slice()),
                    IoSliceMut::new(second.as_mut_slice()),
                ];
                reader.poll_read_vectored(run.poll(), &mut bufs)
            };
            match answer {
                Poll::Pending => run.word("P")?,
                Poll::Ready(read) => run.read_both(read, first.as_slice(), second.as_slice())?,
            }
        }
        _ => return Ok(false),
    }
    Ok(true)
}

/// One poll of `w HEX`, `wv HEX HEX`, `f` or `c`; `false`: `word` is none of them.
pub(crate) fn write_poll<W: AsyncWrite>(
    run: &mut Run<'_, '_>,
    writer: &mut W,
    word: &str,
    words: &mut Words<'_>,
) -> Result<bool, Fault> {
    match word {
        "w" => {
            let bytes = bytes_of(run.alloc, words.take()?)?;
            let answer = writer.poll_write(run.poll(), bytes.as_slice());
            polled(run, answer)?;
        }
        "wv" => {
            let first = bytes_of(run.alloc, words.take()?)?;
            let second = bytes_of(run.alloc, words.take()?)?;
            let bufs = [
                IoSlice::new(first.as_slice()),
                IoSlice::new(second.as_slice()),
            ];
            let answer = writer.poll_write_vectored(run.poll(), &bufs);
            polled(run, answer)?;
        }
        "f" => {
            let answer = writer.poll_flush(run.poll());
            polled(run, answer)?;
        }
        "c" => {
            let answer = writer.poll_close(run.poll());
            polled(run, answer)?;
        }
        _ => return Ok(false),
    }
    Ok(true)
}

/// The futures of `w HEX`, `wv HEX HEX`, `a HEX` (all of it), `f` and `c`; `false`: `word` is none of them.
pub(crate) fn write_call<W: AsyncWrite>(
    run: &mut Run<'_, '_>,
    writer: &mut W,
    word: &str,
    words: &mut Words<'_>,
) -> Result<bool, Fault> {
    match word {
        "w" => {
            let bytes = bytes_of(run.alloc, words.take()?)?;
            let done = run.finish(&mut writer.write(bytes.as_slice()))?;
            run.given(done)?;
        }
        "wv" => {
            let first = bytes_of(run.alloc, words.take()?)?;
            let second = bytes_of(run.alloc, words.take()?)?;
            let bufs = [
                IoSlice::new(first.as_slice()),
                IoSlice::new(second.as_slice()),
            ];
            let done = run.finish(&mut writer.write_vectored(&bufs))?;
            run.given(done)?;
        }
        "a" => {
            let bytes = bytes_of(run.alloc, words.take()?)?;
            let done = run.finish(&mut writer.write_all(bytes.as_slice()))?;
            run.given(done)?;
        }
        "f" => {
            let done = run.finish(&mut writer.flush())?;
            run.given(done)?;
        }
        "c" => {
            let done = run.finish(&mut writer.close())?;
            run.given(done)?;
        }
        _ => return Ok(false),
    }
    Ok(true)
}

/// The future of a seek by `s N` (from the start), `c N` (from here) or `e N` (from the end); `false`: `word` is none of them.
pub(crate) fn seek_call<S: AsyncSeek>(
    run: &mut Run<'_, '_>,
    seeker: &mut S,
    word: &str,
    words: &mut Words<'_>,
) -> Result<bool, Fault> {
    match place_of(word, words)? {
        None => Ok(false),
        Some(pos) => {
            let sought = run.finish(&mut seeker.seek(pos))?;
            run.given(sought)?;
            Ok(true)
        }
    }
}

/// Whether there is one more call, and polls for it.
pub(crate) fn goes_on(run: &Run<'_, '_>, words: &Words<'_>) -> bool {
    !words.first().is_empty() && run.has_polls()
}
