//! Writers that follow orders.
ghost use Rattle.futures_lite.specs.Own.{Anything, anything_writes};

use crate::io_words::kind_of;
use crate::words::{Fault, Words};
use futures_lite::io::{AsyncWrite, BufWriter, WriteSpec};
use futures_lite::{Context, Poll};
use std::alloc::Global;
use std::io::{self, ErrorKind};

/// What an order of a writer is.
#[derive(Clone, Copy)]
pub(crate) enum Order {
    AtMost(usize),
    Wait,
    Fail(ErrorKind),
}

/// A writer whose writes, flushes and closes follow orders, one each; with none left it takes all, and all is well.
#[derive(Clone, Drop)]
pub(crate) struct Ordered {
    writes: Vec<Order>,
    flushes: Vec<Order>,
    closes: Vec<Order>,
    pub(crate) taken: Vec<u8>,
}

impl WriteSpec for Ordered {
    ghost writes = { Anything };

    ghost write_laws = { anything_writes };
}

// Takes the next order, which stands last.
fn followed(orders: &mut Vec<Order>) -> Poll<io::Result<()>> {
    match orders.pop() {
        Some(Order::Wait) => Poll::Pending,
        Some(Order::Fail(kind)) => Poll::Ready(Err(io::Error::from(kind))),
        _ => Poll::Ready(Ok(())),
    }
}

impl AsyncWrite for Ordered {
    fn poll_write(&mut self, _cx: &mut Context<'_>, buf: &[u8]) -> Poll<io::Result<usize>> {
        let most = match self.writes.pop() {
            None => buf.len(),
            Some(Order::AtMost(n)) => n.min(buf.len()),
            Some(Order::Wait) => return Poll::Pending,
            Some(Order::Fail(kind)) => return Poll::Ready(Err(io::Error::from(kind))),
        };
        match self.taken.extend_from_slice(&buf[..most]) {
            Ok(()) => Poll::Ready(Ok(most)),
            Err(e) => Poll::Ready(Err(io::Error::from(e))),
        }
    }

    fn poll_flush(&mut self, _cx: &mut Context<'_>) -> Poll<io::Result<()>> {
        followed(&mut self.flushes)
    }

    fn poll_close(&mut self, _cx: &mut Context<'_>) -> Poll<io::Result<()>> {
        followed(&mut self.closes)
    }
}

fn order_of(word: &str) -> Result<Order, Fault> {
    match word {
        "P" => Ok(Order::Wait),
        "K" => Ok(Order::AtMost(0)),
        _ => match word.parse::<usize>() {
            Ok(n) => Ok(Order::AtMost(n)),
            Err(_) => Ok(Order::Fail(kind_of(word)?)),
        },
    }
}

// The first order stands last.
fn orders_of(alloc: Global, word: &str) -> Result<Vec<Order>, Fault> {
    let mut orders = Vec::new(alloc);
    if word.is_empty() {
        return Ok(orders);
    }
    for piece in word.split(',') {
        orders.push(order_of(piece)?)?;
    }
    orders.reverse();
    Ok(orders)
}

/// A writer by the words `WRITES FLUSHES CLOSES`, where `-` is none.
pub(crate) fn writer_of(alloc: Global, words: &mut Words<'_>) -> Result<Ordered, Fault> {
    let writes = orders_of(alloc, words.part()?)?;
    let flushes = orders_of(alloc, words.part()?)?;
    let closes = orders_of(alloc, words.part()?)?;
    Ok(Ordered {
        writes,
        flushes,
        closes,
        taken: Vec::new(alloc),
    })
}

/// A buffered writer by the words `CAPACITY WRITES FLUSHES CLOSES`.
pub(crate) fn buf_writer_of(
    alloc: Global,
    words: &mut Words<'_>,
) -> Result<BufWriter<Ordered>, Fault> {
    let capacity = words.number()?;
    match BufWriter::with_capacity(alloc, capacity, writer_of(alloc, words)?) {
        Ok(writer) => Ok(writer),
        Err(_) => Err(Fault::Memory),
    }
}
