//! Readers that lend, over nests of readers.
ghost use Rattle.futures_lite.specs.Own.{Anything, anything_reads};

use crate::io_words::bytes_of;
use crate::readers::{BuildReader, Nest, buffered};
use crate::words::{Fault, Words};
use futures_lite::io::{
    self as lite, AsyncBufRead, AsyncRead, BufReader, Budgeted, Chain, CountedRead, Cursor, Empty,
    IoSliceMut, Take, ReadSpec,
};
use futures_lite::{AsyncReadExt, Context, Poll};
use std::alloc::Global;
use std::io;

/// What lends its bytes.
#[derive(Drop)]
pub(crate) enum Lender {
    Buf(BufReader<Nest>),
    Take(Take<BufReader<Nest>>),
    Budget(Budgeted<BufReader<Nest>>),
    Chain(Chain<BufReader<Nest>, BufReader<Nest>>),
    TakeChain(Take<Chain<BufReader<Nest>, BufReader<Nest>>>),
    Memory(Cursor<Vec<u8>>),
    BufBuf(BufReader<BufReader<Nest>>),
    Empty(Empty),
}

impl ReadSpec for Lender {
    ghost reads = { Anything };

    ghost read_laws = { anything_reads };
}

impl AsyncRead for Lender {
    fn poll_read(&mut self, cx: &mut Context<'_>, buf: &mut [u8]) -> Poll<io::Result<usize>> {
        match self {
            Lender::Buf(r) => r.poll_read(cx, buf),
            Lender::Take(r) => r.poll_read(cx, buf),
            Lender::Budget(r) => r.poll_read(cx, buf),
            Lender::Chain(r) => r.poll_read(cx, buf),
            Lender::TakeChain(r) => r.poll_read(cx, buf),
            Lender::Memory(r) => r.poll_read(cx, buf),
            Lender::BufBuf(r) => r.poll_read(cx, buf),
            Lender::Empty(r) => r.poll_read(cx, buf),
        }
    }

    fn poll_read_vectored(
        &mut self,
        cx: &mut Context<'_>,
        bufs: &mut [IoSliceMut<'_>],
    ) -> Poll<io::Result<usize>> {
        match self {
            Lender::Buf(r) => r.poll_read_vectored(cx, bufs),
            Lender::Take(r) => r.poll_read_vectored(cx, bufs),
            Lender::Budget(r) => r.poll_read_vectored(cx, bufs),
            Lender::Chain(r) => r.poll_read_vectored(cx, bufs),
            Lender::TakeChain(r) => r.poll_read_vectored(cx, bufs),
            Lender::Memory(r) => r.poll_read_vectored(cx, bufs),
            Lender::BufBuf(r) => r.poll_read_vectored(cx, bufs),
            Lender::Empty(r) => r.poll_read_vectored(cx, bufs),
        }
    }
}

impl AsyncBufRead for Lender {
    ghost buffer_of = { ? };

    ghost shows = { ? };

    fn poll_fill_buf(&mut self, cx: &mut Context<'_>) -> Poll<io::Result<&[u8]>> {
        match self {
            Lender::Buf(r) => r.poll_fill_buf(cx),
            Lender::Take(r) => r.poll_fill_buf(cx),
            Lender::Budget(r) => r.poll_fill_buf(cx),
            Lender::Chain(r) => r.poll_fill_buf(cx),
            Lender::TakeChain(r) => r.poll_fill_buf(cx),
            Lender::Memory(r) => r.poll_fill_buf(cx),
            Lender::BufBuf(r) => r.poll_fill_buf(cx),
            Lender::Empty(r) => r.poll_fill_buf(cx),
        }
    }

    fn buffer(&self) -> &[u8] {
        match self {
            Lender::Buf(r) => r.buffer(),
            Lender::Take(r) => r.buffer(),
            Lender::Budget(r) => r.buffer(),
            Lender::Chain(r) => r.buffer(),
            Lender::TakeChain(r) => r.buffer(),
            Lender::Memory(r) => r.buffer(),
            Lender::BufBuf(r) => r.buffer(),
            Lender::Empty(r) => r.buffer(),
        }
    }

    fn consume(&mut self, amount: usize) {
        match self {
            Lender::Buf(r) => r.consume(amount),
            Lender::Take(r) => r.consume(amount),
            Lender::Budget(r) => r.consume(amount),
            Lender::Chain(r) => r.consume(amount),
            Lender::TakeChain(r) => r.consume(amount),
            Lender::Memory(r) => r.consume(amount),
            Lender::BufBuf(r) => r.consume(amount),
            Lender::Empty(r) => r.consume(amount),
        }
    }
}

impl CountedRead for Lender {
    ghost ranks = { ? };

    ghost counting = { ? };
}

fn buffered_nest(alloc: Global, words: &mut Words<'_>) -> Result<BufReader<Nest>, Fault> {
    let capacity = words.number()?;
    let reader = Nest::build(alloc, words)?;
    buffered(alloc, capacity, reader)
}

impl BuildReader for Lender {
    fn build(alloc: Global, words: &mut Words<'_>) -> Result<Lender, Fault> {
        match words.take()? {
            "lbuf" => Ok(Lender::Buf(buffered_nest(alloc, words)?)),
            "ltake" => {
                let n = words.number()? as u64;
                Ok(Lender::Take(buffered_nest(alloc, words)?.take(n)))
            }
            "lbudget" => {
                let n = words.number()?;
                if n == 0 {
                    return Err(Fault::Words);
                }
                Ok(Lender::Budget(buffered_nest(alloc, words)?.with_budget(n)))
            }
            "lchain" => {
                let first = buffered_nest(alloc, words)?;
                Ok(Lender::Chain(first.chain(buffered_nest(alloc, words)?)))
            }
            "ltakechain" => {
                let n = words.number()? as u64;
                let first = buffered_nest(alloc, words)?;
                Ok(Lender::TakeChain(first.chain(buffered_nest(alloc, words)?).take(n)))
            }
            "lnone" => Ok(Lender::Empty(lite::empty())),
            "lmem" => Ok(Lender::Memory(Cursor::new(bytes_of(alloc, words.take()?)?))),
            "lbufbuf" => {
                let capacity = words.number()?;
                let inner = buffered_nest(alloc, words)?;
                Ok(Lender::BufBuf(buffered(alloc, capacity, inner)?))
            }
            _ => Err(Fault::Words),
        }
    }
}

impl Lender {
    /// The limit, where the outermost reader has one.
    pub(crate) fn limit(&self) -> Result<u64, Fault> {
        match self {
            Lender::Take(r) => Ok(r.limit()),
            Lender::TakeChain(r) => Ok(r.limit()),
            _ => Err(Fault::Words),
        }
    }

    /// Sets it.
    pub(crate) fn set_limit(&mut self, limit: u64) -> Result<(), Fault> {
        match self {
            Lender::Take(r) => r.set_limit(limit),
            Lender::TakeChain(r) => r.set_limit(limit),
            _ => return Err(Fault::Words),
        }
        Ok(())
    }
}
