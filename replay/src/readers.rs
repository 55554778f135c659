//! Readers that are scripted or stand over memory, and nests of readers.
ghost use Rattle.futures_lite.specs.Own.{Anything, anything_reads};

use crate::io_words::{bytes_of, marks_of};
use crate::words::{Fault, Words};
use futures_lite::io::{
    self as lite, AsyncRead, BufReader, Budgeted, Chain, CountedRead, Cursor, Empty, IoSliceMut,
    Repeat, Take, ReadSpec,
};
use futures_lite::{AsyncReadExt, Context, Poll};
use lite_mock::Marks;
use std::alloc::Global;
use std::io;

/// What a nest of readers is made from, by the words.
pub(crate) trait BuildReader: Sized {
    fn build(alloc: Global, words: &mut Words<'_>) -> Result<Self, Fault>;
}

/// The innermost readers.
#[derive(Drop)]
pub(crate) enum Source {
    Marks(Marks),
    Memory(Memory),
    Empty(Empty),
    Repeat(Take<Repeat>),
}

/// A cursor that is pending so many times first, without a wake.
#[derive(Drop)]
pub(crate) struct Memory {
    left: usize,
    cursor: Cursor<Vec<u8>>,
}

impl Memory {
    fn of(alloc: Global, left: usize, word: &str) -> Result<Source, Fault> {
        let cursor = Cursor::new(bytes_of(alloc, word)?);
        Ok(Source::Memory(Memory { left, cursor }))
    }

    fn is_pending(&mut self) -> bool {
        let is_pending = self.left > 0;
        self.left = self.left.saturating_sub(1);
        is_pending
    }
}

impl ReadSpec for Source {
    ghost reads = { Anything };

    ghost read_laws = { anything_reads };
}

impl AsyncRead for Source {
    fn poll_read(&mut self, cx: &mut Context<'_>, buf: &mut [u8]) -> Poll<io::Result<usize>> {
        match self {
            Source::Marks(r) => r.poll_read(cx, buf),
            Source::Memory(r) => {
                if r.is_pending() {
                    return Poll::Pending;
                }
                r.cursor.poll_read(cx, buf)
            }
            Source::Empty(r) => r.poll_read(cx, buf),
            Source::Repeat(r) => r.poll_read(cx, buf),
        }
    }

    fn poll_read_vectored(
        &mut self,
        cx: &mut Context<'_>,
        bufs: &mut [IoSliceMut<'_>],
    ) -> Poll<io::Result<usize>> {
        match self {
            Source::Marks(r) => r.poll_read_vectored(cx, bufs),
            Source::Memory(r) => {
                if r.is_pending() {
                    return Poll::Pending;
                }
                r.cursor.poll_read_vectored(cx, bufs)
            }
            Source::Empty(r) => r.poll_read_vectored(cx, bufs),
            Source::Repeat(r) => r.poll_read_vectored(cx, bufs),
        }
    }
}

impl CountedRead for Source {
    ghost ranks = { ? };

    ghost counting = { ? };
}

impl BuildReader for Source {
    fn build(alloc: Global, words: &mut Words<'_>) -> Result<Source, Fault> {
        let word = words.take()?;
        if let Some(rest) = word.strip_prefix("M:") {
            let marks = marks_of(alloc, rest)?;
            return Ok(Source::Marks(if words.is_quiet { marks.quiet() } else { marks }));
        }
        match word {
            "mem" => Memory::of(alloc, 0, words.take()?),
            "still" => {
                let left = words.number()?;
                Memory::of(alloc, left, words.take()?)
            }
            "none" => Ok(Source::Empty(lite::empty())),
            "rep" => {
                let n = words.number()? as u64;
                Ok(Source::Repeat(lite::repeat(b'r').take(n)))
            }
            _ => Err(Fault::Words),
        }
    }
}

/// A reader, or one adapter over it.
#[derive(Drop)]
pub(crate) enum Reader<R: CountedRead + Drop> {
    Plain(R),
    Take(Take<R>),
    Chain(Chain<R, R>),
    Buf(BufReader<R>),
    Budget(Budgeted<R>),
}

impl<R: CountedRead + Drop> ReadSpec for Reader<R> {
    ghost reads = { Anything };

    ghost read_laws = { anything_reads };
}

impl<R: CountedRead + Drop> AsyncRead for Reader<R> {
    fn poll_read(&mut self, cx: &mut Context<'_>, buf: &mut [u8]) -> Poll<io::Result<usize>> {
        match self {
            Reader::Plain(r) => r.poll_read(cx, buf),
            Reader::Take(r) => r.poll_read(cx, buf),
            Reader::Chain(r) => r.poll_read(cx, buf),
            Reader::Buf(r) => r.poll_read(cx, buf),
            Reader::Budget(r) => r.poll_read(cx, buf),
        }
    }

    fn poll_read_vectored(
        &mut self,
        cx: &mut Context<'_>,
        bufs: &mut [IoSliceMut<'_>],
    ) -> Poll<io::Result<usize>> {
        match self {
            Reader::Plain(r) => r.poll_read_vectored(cx, bufs),
            Reader::Take(r) => r.poll_read_vectored(cx, bufs),
            Reader::Chain(r) => r.poll_read_vectored(cx, bufs),
            Reader::Buf(r) => r.poll_read_vectored(cx, bufs),
            Reader::Budget(r) => r.poll_read_vectored(cx, bufs),
        }
    }
}

impl<R: CountedRead + Drop> CountedRead for Reader<R> {
    ghost ranks = { ? };

    ghost counting = { ? };
}

/// A buffered reader of this capacity.
pub(crate) fn buffered<R: AsyncRead + Drop>(
    alloc: Global,
    capacity: usize,
    reader: R,
) -> Result<BufReader<R>, Fault> {
    match BufReader::with_capacity(alloc, capacity, reader) {
        Ok(r) => Ok(r),
        Err(_) => Err(Fault::Memory),
    }
}

impl<R: BuildReader + CountedRead + Drop> BuildReader for Reader<R> {
    fn build(alloc: Global, words: &mut Words<'_>) -> Result<Reader<R>, Fault> {
        match words.first() {
            "take" => {
                words.take()?;
                let n = words.number()? as u64;
                Ok(Reader::Take(R::build(alloc, words)?.take(n)))
            }
            "budget" => {
                words.take()?;
                let n = words.number()?;
                if n == 0 {
                    return Err(Fault::Words);
                }
                Ok(Reader::Budget(R::build(alloc, words)?.with_budget(n)))
            }
            "chain" => {
                words.take()?;
                let first = R::build(alloc, words)?;
                Ok(Reader::Chain(first.chain(R::build(alloc, words)?)))
            }
            "buf" => {
                words.take()?;
                let capacity = words.number()?;
                let reader = R::build(alloc, words)?;
                Ok(Reader::Buf(buffered(alloc, capacity, reader)?))
            }
            _ => Ok(Reader::Plain(R::build(alloc, words)?)),
        }
    }
}

/// At most two adapters.
pub(crate) type Nest = Reader<Reader<Source>>;

impl<R: CountedRead + Drop> Reader<R> {
    /// The limit, where the outermost reader has one.
    pub(crate) fn limit(&self) -> Result<u64, Fault> {
        match self {
            Reader::Take(r) => Ok(r.limit()),
            _ => Err(Fault::Words),
        }
    }

    /// Sets it.
    pub(crate) fn set_limit(&mut self, limit: u64) -> Result<(), Fault> {
        match self {
            Reader::Take(r) => {
                r.set_limit(limit);
                Ok(())
            }
            _ => Err(Fault::Words),
        }
    }
}
