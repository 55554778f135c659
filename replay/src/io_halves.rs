//! Cases of the two halves of a stream, and of those of a journal.
use crate::io_calls::{goes_on, read_poll, write_poll};
use crate::io_journals::{Duplex, Shown, answers_of, list_of, show};
use crate::io_run::Run;
use crate::io_words::bytes_of;
use crate::words::{Fault, Words};
use futures_lite::io::{
    self, AsyncRead, AsyncWrite, NewCounters, Call, Cursor, Journal, JournalReadHalf, JournalWriteHalf,
    history, split_journalled,
};
use std::alloc::AllocGlobal;
use std::marker::Brand;
use std::sync::Wait;

/// What the halves are of, and how they are called.
#[derive(Clone, Copy)]
enum Mode {
    /// Halves of a stream, polled.
    Plain,
    /// Halves of a journal, polled.
    Journalled,
    /// Halves of a journal, which are given lists of calls.
    Driven,
}

/// Runs a case of one of these modes, whose halves wait for their lock by `rt`; `false`: `mode` is none of them.
pub(crate) fn answered<R: Wait + AllocGlobal + Copy + Drop>(
    rt: R,
    mode: &str,
    run: &mut Run<'_, '_>,
    words: &mut Words<'_>,
) -> Result<bool, Fault> {
    let mode = match mode {
        "plainhalves" => Mode::Plain,
        "halves" => Mode::Journalled,
        "halves_drive" => Mode::Driven,
        _ => return Ok(false),
    };
    match words.take()? {
        "mem" => {
            let cursor = Cursor::new(bytes_of(run.alloc, words.take()?)?);
            of_stream(rt, mode, run, cursor, words)?;
        }
        word => {
            let stream = Duplex::build(run.alloc, word, words)?;
            of_stream(rt, mode, run, stream, words)?;
        }
    }
    Ok(true)
}

fn of_stream<R, T>(
    rt: R,
    mode: Mode,
    run: &mut Run<'_, '_>,
    stream: T,
    words: &mut Words<'_>,
) -> Result<(), Fault>
where
    R: Wait + AllocGlobal + Copy + Drop,
    T: AsyncRead + AsyncWrite + Shown + Clone + Drop,
{
    if matches!(mode, Mode::Plain) {
        let Ok((mut reader, mut writer)) = io::split(rt, stream) else {
            return Err(Fault::Memory);
        };
        return call(run, &mut reader, &mut writer, words);
    }
    let Ok(mut journal) = Journal::new(run.alloc, stream) else {
        return Err(Fault::Memory);
    };
    while goes_on(run, words) && words.first() != "split" {
        one_call(run, &mut journal, words)?;
    }
    words.take()?;
    let Ok((mut reader, mut writer)) = split_journalled::<R, T, Brand>(rt, journal, NewCounters::new())
    else {
        return Err(Fault::Memory);
    };
    match mode {
        Mode::Driven => drive(run, &mut reader, &mut writer, words)?,
        Mode::Plain | Mode::Journalled => call(run, &mut reader, &mut writer, words)?,
    }
    for counted in [reader.calls(), reader.bytes(), writer.calls(), writer.bytes()] {
        run.number(counted)?;
    }
    match history(&mut reader, &mut writer) {
        Ok(told) => show(run, told),
        Err(_) => Err(Fault::Memory),
    }
}

/// One poll of a journal.
fn one_call<T: AsyncRead + AsyncWrite + Clone>(
    run: &mut Run<'_, '_>,
    journal: &mut Journal<T>,
    words: &mut Words<'_>,
) -> Result<(), Fault> {
    let word = words.take()?;
    if read_poll(run, journal, word, words)? || write_poll(run, journal, word, words)? {
        Ok(())
    } else {
        Err(Fault::Words)
    }
}

/// One poll of a half for each call.
fn call<S: AsyncRead, T: AsyncWrite>(
    run: &mut Run<'_, '_>,
    reader: &mut S,
    writer: &mut T,
    words: &mut Words<'_>,
) -> Result<(), Fault> {
    while goes_on(run, words) {
        let word = words.take()?;
        if !read_poll(run, reader, word, words)? && !write_poll(run, writer, word, words)? {
            return Err(Fault::Words);
        }
    }
    Ok(())
}

/// Lists of calls, each of reads or of all others, and their answers.
fn drive<R, T>(
    run: &mut Run<'_, '_>,
    reader: &mut JournalReadHalf<R, T, Brand>,
    writer: &mut JournalWriteHalf<R, T, Brand>,
    words: &mut Words<'_>,
) -> Result<(), Fault>
where
    R: Wait + AllocGlobal,
    T: AsyncRead + AsyncWrite + Clone,
{
    while goes_on(run, words) {
        let calls = list_of(run.alloc, words)?;
        let mut answers = Vec::new(run.alloc);
        let driven = match calls.first() {
            Some(Call::Read { .. }) => {
                let mut rooms = Vec::new(run.alloc);
                for each in &calls {
                    match each {
                        Call::Read { room } => rooms.push(*room)?,
                        _ => return Err(Fault::Words),
                    }
                }
                reader.drive(run.poll(), rooms.as_slice(), &mut answers)
            }
            _ => writer.drive(run.poll(), calls.as_slice(), &mut answers),
        };
        answers_of(run, driven, answers.as_slice())?;
    }
    Ok(())
}
