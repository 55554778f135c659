//! Cases of copies.
use crate::io_run::Run;
use crate::io_words::bytes_of;
use crate::readers::{BuildReader, Nest};
use crate::words::{Fault, Words};
use crate::writers::{Ordered, buf_writer_of, writer_of};
use futures_lite::AsyncWriteExt;
use futures_lite::io::{self as lite, AsyncWrite, BufWriter, CountedRead, Cursor};
use futures_lite::laws::copy_buffered;

/// Runs a case of one of these modes; `false`: `mode` is none of them.
pub(crate) fn answered(
    mode: &str,
    run: &mut Run<'_, '_>,
    words: &mut Words<'_>,
) -> Result<bool, Fault> {
    match mode {
        "copy" => copy(run, words)?,
        "copies" => copies(run, words)?,
        "copybuf" => copy_to_buffered(run, words)?,
        "copyheld" => copy_held(run, words)?,
        "copyslice" => copy_to_slice(run, words)?,
        _ => return Ok(false),
    }
    Ok(true)
}

/// The future of one copy.
fn copy_once<R: CountedRead + Drop, W: AsyncWrite + Drop>(
    run: &mut Run<'_, '_>,
    reader: R,
    writer: W,
) -> Result<(), Fault> {
    let Ok(mut future) = lite::copy(run.alloc, reader, writer) else {
        return Err(Fault::Memory);
    };
    let copied = run.finish(&mut future)?;
    run.given(copied)
}

/// `copy WRITER NEST`: one copy; what was taken is shown at last.
fn copy(run: &mut Run<'_, '_>, words: &mut Words<'_>) -> Result<(), Fault> {
    let mut writer = writer_of(run.alloc, words)?;
    let reader = Nest::build(run.alloc, words)?;
    copy_once(run, reader, &mut writer)?;
    run.bytes(writer.taken.as_slice())
}

/// `copies COUNT WRITER NEST`: so many copies of the same two; what was taken is shown after each.
fn copies(run: &mut Run<'_, '_>, words: &mut Words<'_>) -> Result<(), Fault> {
    let count = words.number()?;
    let mut writer = writer_of(run.alloc, words)?;
    let mut reader = Nest::build(run.alloc, words)?;
    for _ in 0..count {
        copy_once(run, &mut reader, &mut writer)?;
        run.bytes(writer.taken.as_slice())?;
    }
    Ok(())
}

/// One copy to a buffered writer; what is held and what was taken is shown at last.
fn buffered<R: CountedRead + Drop>(
    run: &mut Run<'_, '_>,
    reader: R,
    mut writer: BufWriter<Ordered>,
) -> Result<(), Fault> {
    {
        let Ok(mut future) = copy_buffered(run.alloc, reader, &mut writer) else {
            return Err(Fault::Memory);
        };
        let copied = run.finish(&mut future)?;
        run.given(copied)?;
    }
    run.bytes(writer.buffer())?;
    run.bytes(writer.get_ref().taken.as_slice())
}

/// `copybuf CAPACITY WRITER NEST`: one copy to a buffered writer.
fn copy_to_buffered(run: &mut Run<'_, '_>, words: &mut Words<'_>) -> Result<(), Fault> {
    let writer = buf_writer_of(run.alloc, words)?;
    buffered(run, Nest::build(run.alloc, words)?, writer)
}

/// `copyslice HEX NEST`: one copy to a cursor over these bytes, which are shown at last.
fn copy_to_slice(run: &mut Run<'_, '_>, words: &mut Words<'_>) -> Result<(), Fault> {
    let mut bytes = bytes_of(run.alloc, words.take()?)?;
    let reader = Nest::build(run.alloc, words)?;
    copy_once(run, reader, Cursor::new(bytes.as_mut_slice()))?;
    run.bytes(bytes.as_slice())
}

/// `copyheld HEX CAPACITY WRITER NEST`: a write of these bytes to a buffered writer, and then as `copybuf`.
fn copy_held(run: &mut Run<'_, '_>, words: &mut Words<'_>) -> Result<(), Fault> {
    let bytes = bytes_of(run.alloc, words.take()?)?;
    let mut writer = buf_writer_of(run.alloc, words)?;
    let reader = Nest::build(run.alloc, words)?;
    let written = run.finish(&mut writer.write(bytes.as_slice()))?;
    run.given(written)?;
    run.bytes(writer.buffer())?;
    buffered(run, reader, writer)
}
