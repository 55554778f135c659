//! Cases of writers.
use crate::io_calls::{goes_on, write_call, write_poll};
use crate::io_run::Run;
use crate::io_words::bytes_of;
use crate::words::{Fault, Words};
use crate::writers::{buf_writer_of, writer_of};
use futures_lite::io::{AsyncWrite, sink};

/// Runs a case of one of these modes; `false`: `mode` is none of them.
pub(crate) fn answered(
    mode: &str,
    run: &mut Run<'_, '_>,
    words: &mut Words<'_>,
) -> Result<bool, Fault> {
    match mode {
        "write" => write(run, words)?,
        "writes" => writes(run, words)?,
        "plain" => plain(run, words)?,
        "plainwrite" => plain_write(run, words)?,
        "vector" => vector(run, words)?,
        "sink" => call(run, &mut sink(), words)?,
        _ => return Ok(false),
    }
    Ok(true)
}

/// `write CAPACITY WRITER CALL..`: the futures of a buffered writer; what is held is shown after each, what was taken at last.
fn write(run: &mut Run<'_, '_>, words: &mut Words<'_>) -> Result<(), Fault> {
    let mut writer = buf_writer_of(run.alloc, words)?;
    while goes_on(run, words) {
        let word = words.take()?;
        if !write_call(run, &mut writer, word, words)? {
            return Err(Fault::Words);
        }
        run.bytes(writer.buffer())?;
    }
    run.bytes(writer.get_ref().taken.as_slice())
}

/// `writes CAPACITY WRITER CALL..`: one poll of a buffered writer for each call; what is held and what was taken is shown after it.
fn writes(run: &mut Run<'_, '_>, words: &mut Words<'_>) -> Result<(), Fault> {
    let mut writer = buf_writer_of(run.alloc, words)?;
    while goes_on(run, words) {
        let word = words.take()?;
        if !write_poll(run, &mut writer, word, words)? {
            return Err(Fault::Words);
        }
        run.bytes(writer.buffer())?;
        run.bytes(writer.get_ref().taken.as_slice())?;
    }
    Ok(())
}

/// The futures of the calls that are left.
fn call<W: AsyncWrite>(
    run: &mut Run<'_, '_>,
    writer: &mut W,
    words: &mut Words<'_>,
) -> Result<(), Fault> {
    while goes_on(run, words) {
        let word = words.take()?;
        if !write_call(run, writer, word, words)? {
            return Err(Fault::Words);
        }
    }
    Ok(())
}

/// `plain WRITER CALL..`: the futures of a writer; what was taken is shown at last.
fn plain(run: &mut Run<'_, '_>, words: &mut Words<'_>) -> Result<(), Fault> {
    let mut writer = writer_of(run.alloc, words)?;
    call(run, &mut writer, words)?;
    run.bytes(writer.taken.as_slice())
}

/// `plainwrite WRITER HEX..`: writes of all of these bytes; what was taken is shown at last.
fn plain_write(run: &mut Run<'_, '_>, words: &mut Words<'_>) -> Result<(), Fault> {
    let mut writer = writer_of(run.alloc, words)?;
    while goes_on(run, words) {
        write_call(run, &mut writer, "a", words)?;
    }
    run.bytes(writer.taken.as_slice())
}

/// `vector HEX CALL..`: the futures of a vector; it is shown at last.
fn vector(run: &mut Run<'_, '_>, words: &mut Words<'_>) -> Result<(), Fault> {
    let mut bytes = bytes_of(run.alloc, words.take()?)?;
    call(run, &mut bytes, words)?;
    run.bytes(bytes.as_slice())
}
