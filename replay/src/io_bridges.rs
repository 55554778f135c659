//! Cases of bridges to std's traits and from them.
use crate::io_calls::{goes_on, read_poll, room_of, seek_call, write_poll};
use crate::io_run::Run;
use crate::io_words::{bytes_of, kind_of, place_of};
use crate::readers::{BuildReader, Nest};
use crate::words::{Fault, Words};
use futures_lite::io::{
    AssertAsync, AsyncAsSync, AsyncRead, AsyncSeek, AsyncWrite, Cursor, IoSlice, IoSliceMut,
};
use std::io::{self, ErrorKind, Read, Seek, SeekFrom, Write};

/// Runs a case of one of these modes; `false`: `mode` is none of them.
pub(crate) fn answered(
    mode: &str,
    run: &mut Run<'_, '_>,
    words: &mut Words<'_>,
) -> Result<bool, Fault> {
    match mode {
        "stubborn" => stubborn(run, words)?,
        "std" => std_cursor(run, words)?,
        "sync" => sync_reader(run, words)?,
        "syncmem" => sync_cursor(run, words)?,
        _ => return Ok(false),
    }
    Ok(true)
}

/// Answers so many calls with an interruption, the one after them with its error, where it has one, and then each with what was
/// asked. It counts the calls.
#[derive(Drop)]
struct Stubborn {
    interruptions: usize,
    error: Option<ErrorKind>,
    calls: usize,
}

impl Stubborn {
    fn answer<T: Drop>(&mut self, value: T) -> io::Result<T> {
        self.calls = self.calls.saturating_add(1);
        if self.interruptions > 0 {
            self.interruptions -= 1;
            return Err(ErrorKind::Interrupted.into());
        }
        if let Some(kind) = self.error.take() {
            return Err(kind.into());
        }
        Ok(value)
    }
}

impl Read for Stubborn {
    fn read(&mut self, buf: &mut [u8]) -> io::Result<usize> {
        self.answer(())?;
        match buf.first_mut() {
            Some(first) => {
                *first = b'a';
                Ok(1)
            }
            None => Ok(0),
        }
    }
}

impl Write for Stubborn {
    fn write(&mut self, buf: &[u8]) -> io::Result<usize> {
        self.answer(buf.len())
    }

    fn flush(&mut self) -> io::Result<()> {
        self.answer(())
    }
}

impl Seek for Stubborn {
    fn seek(&mut self, _to: SeekFrom) -> io::Result<u64> {
        self.answer(7)
    }
}

fn asserted_call<T: Read + Write + Seek>(
    run: &mut Run<'_, '_>,
    stream: &mut AssertAsync<T>,
    words: &mut Words<'_>,
) -> Result<(), Fault> {
    let word = words.take()?;
    let is_done = match word {
        "r" | "rv" => read_poll(run, stream, word, words)?,
        "w" | "wv" => write_poll(run, stream, word, words)?,
        "flush" => write_poll(run, stream, "f", words)?,
        "close" => write_poll(run, stream, "c", words)?,
        _ => seek_call(run, stream, word, words)?,
    };
    if is_done { Ok(()) } else { Err(Fault::Words) }
}

/// `stubborn COUNT CALL..`: polls of what is interrupted so often; how often it was called is shown after each. `interrupt N`
/// interrupts it again, and `fail KIND` lets it fail behind its interruptions.
fn stubborn(run: &mut Run<'_, '_>, words: &mut Words<'_>) -> Result<(), Fault> {
    let mut stream = AssertAsync::new(Stubborn {
        interruptions: words.number()?,
        error: None,
        calls: 0,
    });
    while goes_on(run, words) {
        match words.first() {
            "interrupt" => {
                words.take()?;
                stream.get_mut().interruptions = words.number()?;
            }
            "fail" => {
                words.take()?;
                stream.get_mut().error = Some(kind_of(words.take()?)?);
            }
            _ => {
                asserted_call(run, &mut stream, words)?;
                run.number(stream.get_ref().calls as u64)?;
            }
        }
    }
    Ok(())
}

/// `std HEX CALL..`: polls of std's cursor over a vector, which is shown at last.
fn std_cursor(run: &mut Run<'_, '_>, words: &mut Words<'_>) -> Result<(), Fault> {
    let mut stream = AssertAsync::new(io::Cursor::new(bytes_of(run.alloc, words.take()?)?));
    while goes_on(run, words) {
        asserted_call(run, &mut stream, words)?;
    }
    run.bytes(stream.get_ref().get_ref().as_slice())
}

/// A read by std's trait, `r SIZE` or `rv SIZE SIZE`; `false`: `word` is neither.
fn sync_read<R: AsyncRead>(
    run: &mut Run<'_, '_>,
    reader: &mut R,
    word: &str,
    words: &mut Words<'_>,
) -> Result<bool, Fault> {
    match word {
        "r" => {
            let mut room = room_of(run, words)?;
            let read = AsyncAsSync::new(run.poll(), reader).read(room.as_mut_slice());
            run.read(read, room.as_slice())?;
        }
        "rv" => {
            let mut first = room_of(run, words)?;
            let mut second = room_of(run, words)?;
            let read = {
                let mut bufs = [
                    IoSliceMut::new(first.as_mut_slice()),
                    IoSliceMut::new(second.as_mut_slice()),
                ];
                AsyncAsSync::new(run.poll(), reader).read_vectored(&mut bufs)
            };
            run.read_both(read, first.as_slice(), second.as_slice())?;
        }
        _ => return Ok(false),
    }
    Ok(true)
}

/// A write or a seek by std's traits.
fn sync_write<S: AsyncWrite + AsyncSeek>(
    run: &mut Run<'_, '_>,
    stream: &mut S,
    word: &str,
    words: &mut Words<'_>,
) -> Result<(), Fault> {
    match word {
        "w" => {
            let bytes = bytes_of(run.alloc, words.take()?)?;
            let written = AsyncAsSync::new(run.poll(), stream).write(bytes.as_slice());
            run.value(written)
        }
        "wv" => {
            let first = bytes_of(run.alloc, words.take()?)?;
            let second = bytes_of(run.alloc, words.take()?)?;
            let bufs = [
                IoSlice::new(first.as_slice()),
                IoSlice::new(second.as_slice()),
            ];
            let written = AsyncAsSync::new(run.poll(), stream).write_vectored(&bufs);
            run.value(written)
        }
        "flush" => {
            let flushed = AsyncAsSync::new(run.poll(), stream).flush();
            run.value(flushed)
        }
        "close" => {
            let closed = AsyncAsSync::new(run.poll(), stream).close();
            run.value(closed)
        }
        _ => match place_of(word, words)? {
            Some(pos) => {
                let sought = AsyncAsSync::new(run.poll(), stream).seek(pos);
                run.value(sought)
            }
            None => Err(Fault::Words),
        },
    }
}

/// `sync NEST CALL..`: reads of a nest by std's traits.
fn sync_reader(run: &mut Run<'_, '_>, words: &mut Words<'_>) -> Result<(), Fault> {
    let mut reader = Nest::build(run.alloc, words)?;
    while goes_on(run, words) {
        let word = words.take()?;
        if !sync_read(run, &mut reader, word, words)? {
            return Err(Fault::Words);
        }
    }
    Ok(())
}

/// `syncmem HEX CALL..`: calls of a cursor over a vector by std's traits; the vector is shown at last.
fn sync_cursor(run: &mut Run<'_, '_>, words: &mut Words<'_>) -> Result<(), Fault> {
    let mut cursor = Cursor::new(bytes_of(run.alloc, words.take()?)?);
    while goes_on(run, words) {
        let word = words.take()?;
        if !sync_read(run, &mut cursor, word, words)? {
            sync_write(run, &mut cursor, word, words)?;
        }
    }
    run.bytes(cursor.get_ref().as_slice())
}
