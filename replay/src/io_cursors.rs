//! Cases of cursors, and of buffers over them.
use crate::io_calls::{goes_on, read_poll, room_of, seek_call, write_call};
use crate::io_lending::until_once;
use crate::io_reading::read_once;
use crate::io_run::Run;
use crate::io_words::bytes_of;
use crate::readers::buffered;
use crate::words::{Fault, Words};
use futures_lite::io::{AsyncRead, AsyncSeek, AsyncWrite, BufReader, BufWriter, Cursor};

/// Runs a case of one of these modes; `false`: `mode` is none of them.
pub(crate) fn answered(
    mode: &str,
    run: &mut Run<'_, '_>,
    words: &mut Words<'_>,
) -> Result<bool, Fault> {
    match mode {
        "seek" => seek(run, words)?,
        "slice" => slice(run, words)?,
        "seekbuf" => seek_reader(run, words)?,
        "seekwrite" => seek_writer(run, words)?,
        _ => return Ok(false),
    }
    Ok(true)
}

// Here `c N` is a seek, so that a close is `close`; a flush is `flush`.
fn write_or_seek<S: AsyncWrite + AsyncSeek>(
    run: &mut Run<'_, '_>,
    stream: &mut S,
    word: &str,
    words: &mut Words<'_>,
) -> Result<(), Fault> {
    let is_done = match word {
        "flush" => write_call(run, stream, "f", words)?,
        "close" => write_call(run, stream, "c", words)?,
        "w" | "wv" | "a" => write_call(run, stream, word, words)?,
        _ => seek_call(run, stream, word, words)?,
    };
    if is_done { Ok(()) } else { Err(Fault::Words) }
}

fn cursor_call<S: AsyncRead + AsyncWrite + AsyncSeek>(
    run: &mut Run<'_, '_>,
    cursor: &mut S,
    words: &mut Words<'_>,
) -> Result<(), Fault> {
    match words.take()? {
        "r" => {
            let mut room = room_of(run, words)?;
            read_once(run, cursor, room.as_mut_slice())
        }
        "rv" => {
            read_poll(run, cursor, "rv", words)?;
            Ok(())
        }
        word => write_or_seek(run, cursor, word, words),
    }
}

/// `seek HEX CALL..`: the futures of a cursor over a vector; its position is shown after each, the vector at last.
fn seek(run: &mut Run<'_, '_>, words: &mut Words<'_>) -> Result<(), Fault> {
    let mut cursor = Cursor::new(bytes_of(run.alloc, words.take()?)?);
    while goes_on(run, words) {
        cursor_call(run, &mut cursor, words)?;
        run.number(cursor.position())?;
    }
    run.bytes(cursor.get_ref().as_slice())
}

/// `slice HEX CALL..`: the same over a slice.
fn slice(run: &mut Run<'_, '_>, words: &mut Words<'_>) -> Result<(), Fault> {
    let mut bytes = bytes_of(run.alloc, words.take()?)?;
    {
        let mut cursor = Cursor::new(bytes.as_mut_slice());
        while goes_on(run, words) {
            cursor_call(run, &mut cursor, words)?;
            run.number(cursor.position())?;
        }
    }
    run.bytes(bytes.as_slice())
}

/// `seekbuf CAPACITY HEX CALL..`: the futures of a buffered reader over a cursor, where `l` reads up to a newline; what is ahead and
/// the cursor's position are shown after each.
fn seek_reader(run: &mut Run<'_, '_>, words: &mut Words<'_>) -> Result<(), Fault> {
    let capacity = words.number()?;
    let cursor = Cursor::new(bytes_of(run.alloc, words.take()?)?);
    let mut reader: BufReader<Cursor<Vec<u8>>> = buffered(run.alloc, capacity, cursor)?;
    while goes_on(run, words) {
        if words.first() == "l" {
            words.take()?;
            until_once(run, &mut reader, b'\n')?;
        } else {
            cursor_call(run, &mut reader, words)?;
        }
        run.bytes(reader.buffer())?;
        run.number(reader.get_ref().position())?;
    }
    Ok(())
}

/// `seekwrite CAPACITY HEX CALL..`: the futures of a buffered writer over a cursor; what is held and the vector are shown after each.
fn seek_writer(run: &mut Run<'_, '_>, words: &mut Words<'_>) -> Result<(), Fault> {
    let capacity = words.number()?;
    let cursor = Cursor::new(bytes_of(run.alloc, words.take()?)?);
    let Ok(mut writer) = BufWriter::with_capacity(run.alloc, capacity, cursor) else {
        return Err(Fault::Memory);
    };
    while goes_on(run, words) {
        let word = words.take()?;
        write_or_seek(run, &mut writer, word, words)?;
        run.bytes(writer.buffer())?;
        run.bytes(writer.get_ref().get_ref().as_slice())?;
    }
    Ok(())
}
