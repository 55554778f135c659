//! Cases of journals.
ghost use Rattle.futures_lite.specs.Own.{Anything, anything_reads, anything_writes};

use crate::io_calls::{goes_on, read_poll, write_poll};
use crate::io_run::Run;
use crate::io_words::{bytes_of, marks_of};
use crate::words::{Fault, Words};
use crate::writers::{Ordered, writer_of};
use futures_lite::io::{
    Answer, AsyncRead, AsyncWrite, Call, Cursor, Entry, Journal, WriteSpec, ReadSpec,
};
use futures_lite::{Context, Poll};
use lite_mock::Marks;
use std::alloc::{AllocError, Global};
use std::io;

/// Runs a case of one of these modes; `false`: `mode` is none of them.
pub(crate) fn answered(
    mode: &str,
    run: &mut Run<'_, '_>,
    words: &mut Words<'_>,
) -> Result<bool, Fault> {
    let is_driven = match mode {
        "journal" => false,
        "drive" => true,
        _ => return Ok(false),
    };
    match words.take()? {
        "mem" => {
            let cursor = Cursor::new(bytes_of(run.alloc, words.take()?)?);
            journalled(run, cursor, is_driven, words)?;
        }
        word => {
            let stream = Duplex::build(run.alloc, word, words)?;
            journalled(run, stream, is_driven, words)?;
        }
    }
    Ok(true)
}

/// A stream that is read by a script and written by orders.
#[derive(Clone, Drop)]
pub(crate) struct Duplex {
    reader: Marks,
    writer: Ordered,
}

impl Duplex {
    /// The stream of the words `M:.. WRITES FLUSHES CLOSES`, of which `word` is the first.
    pub(crate) fn build(
        alloc: Global,
        word: &str,
        words: &mut Words<'_>,
    ) -> Result<Duplex, Fault> {
        let Some(marks) = word.strip_prefix("M:") else {
            return Err(Fault::Words);
        };
        let reader = marks_of(alloc, marks)?;
        Ok(Duplex {
            reader: if words.is_quiet { reader.quiet() } else { reader },
            writer: writer_of(alloc, words)?,
        })
    }
}

impl ReadSpec for Duplex {
    ghost reads = { Anything };

    ghost read_laws = { anything_reads };
}

impl WriteSpec for Duplex {
    ghost writes = { Anything };

    ghost write_laws = { anything_writes };
}

impl AsyncRead for Duplex {
    fn poll_read(&mut self, cx: &mut Context<'_>, buf: &mut [u8]) -> Poll<io::Result<usize>> {
        self.reader.poll_read(cx, buf)
    }
}

impl AsyncWrite for Duplex {
    fn poll_write(&mut self, cx: &mut Context<'_>, buf: &[u8]) -> Poll<io::Result<usize>> {
        self.writer.poll_write(cx, buf)
    }

    fn poll_flush(&mut self, cx: &mut Context<'_>) -> Poll<io::Result<()>> {
        self.writer.poll_flush(cx)
    }

    fn poll_close(&mut self, cx: &mut Context<'_>) -> Poll<io::Result<()>> {
        self.writer.poll_close(cx)
    }
}

/// A stream that can be shown.
pub(crate) trait Shown {
    fn show(&self, run: &mut Run<'_, '_>) -> Result<(), Fault>;
}

impl Shown for Cursor<Vec<u8>> {
    fn show(&self, run: &mut Run<'_, '_>) -> Result<(), Fault> {
        run.bytes(self.get_ref().as_slice())?;
        run.number(self.position())
    }
}

impl Shown for Duplex {
    fn show(&self, run: &mut Run<'_, '_>) -> Result<(), Fault> {
        run.bytes(self.writer.taken.as_slice())
    }
}

/// `journal STREAM CALL..` and `drive STREAM CALL..`: one poll of a journal for each call, or lists of calls; then its entries, its
/// start, and the stream as it is then.
fn journalled<T: AsyncRead + AsyncWrite + Shown + Clone + Drop>(
    run: &mut Run<'_, '_>,
    stream: T,
    is_driven: bool,
    words: &mut Words<'_>,
) -> Result<(), Fault> {
    let Ok(mut journal) = Journal::new(run.alloc, stream) else {
        return Err(Fault::Memory);
    };
    if is_driven {
        drive(run, &mut journal, words)?;
    } else {
        call(run, &mut journal, words)?;
    }
    show(run, journal)
}

/// Shows the entries of a journal, its start, and the stream as it is now.
pub(crate) fn show<T: AsyncRead + AsyncWrite + Shown + Clone + Drop>(
    run: &mut Run<'_, '_>,
    journal: Journal<T>,
) -> Result<(), Fault> {
    run.part("[")?;
    for entry in journal.entries() {
        shown(run, entry)?;
    }
    run.word("]")?;
    journal.start().show(run)?;
    journal.into_inner().show(run)
}

fn call<T: AsyncRead + AsyncWrite + Clone>(
    run: &mut Run<'_, '_>,
    journal: &mut Journal<T>,
    words: &mut Words<'_>,
) -> Result<(), Fault> {
    while goes_on(run, words) {
        let word = words.take()?;
        let is_done = match word {
            "r" | "rv" => read_poll(run, journal, word, words)?,
            _ => write_poll(run, journal, word, words)?,
        };
        if !is_done {
            return Err(Fault::Words);
        }
    }
    Ok(())
}

/// Lists of calls, with the word `then` between each two, and their answers.
fn drive<T: AsyncRead + AsyncWrite + Clone>(
    run: &mut Run<'_, '_>,
    journal: &mut Journal<T>,
    words: &mut Words<'_>,
) -> Result<(), Fault> {
    while goes_on(run, words) {
        let calls = list_of(run.alloc, words)?;
        let mut answers = Vec::new(run.alloc);
        let driven = journal.drive(run.poll(), calls.as_slice(), &mut answers);
        answers_of(run, driven, answers.as_slice())?;
    }
    Ok(())
}

/// The answers to a list of calls, and whether memory was refused to it.
pub(crate) fn answers_of(
    run: &mut Run<'_, '_>,
    driven: Result<(), AllocError>,
    answers: &[Answer],
) -> Result<(), Fault> {
    for answer in answers {
        told(run, answer)?;
    }
    match driven {
        Ok(()) => Ok(()),
        Err(AllocError) => run.word("refused"),
    }
}

/// The calls up to the word `then`, or to the end.
pub(crate) fn list_of(alloc: Global, words: &mut Words<'_>) -> Result<Vec<Call>, Fault> {
    let mut calls = Vec::new(alloc);
    while !words.first().is_empty() {
        if words.first() == "then" {
            words.take()?;
            break;
        }
        calls.push(call_of(alloc, words)?)?;
    }
    Ok(calls)
}

fn call_of(alloc: Global, words: &mut Words<'_>) -> Result<Call, Fault> {
    match words.take()? {
        "r" => Ok(Call::Read {
            room: words.number()?,
        }),
        "w" => Ok(Call::Write(bytes_of(alloc, words.take()?)?)),
        "f" => Ok(Call::Flush),
        "c" => Ok(Call::Close),
        _ => Err(Fault::Words),
    }
}

/// An entry as `r1=x78`, `w7a=1`, `f=ok` or `c=ok`.
fn shown(run: &mut Run<'_, '_>, entry: &Entry) -> Result<(), Fault> {
    match &entry.call {
        Call::Read { room } => {
            let mut buffer = itoa::Buffer::new();
            run.part("r")?;
            run.part(buffer.format(*room))?;
        }
        Call::Write(bytes) => {
            run.part("w")?;
            run.digits(bytes.as_slice())?;
        }
        Call::Flush => run.part("f")?,
        Call::Close => run.part("c")?,
    }
    run.part("=")?;
    told(run, &entry.answer)
}

fn told(run: &mut Run<'_, '_>, answer: &Answer) -> Result<(), Fault> {
    match answer {
        Answer::Pending => run.word("P"),
        Answer::Read(bytes) => run.bytes(bytes.as_slice()),
        Answer::Wrote(n) => run.number(*n as u64),
        Answer::Done => run.word("ok"),
        Answer::Fault(kind) => run.kind(*kind),
    }
}
