//! One connection, as a task.
ghost use Rattle.std.specs.Prelude.{◌≡◌};
ghost use Rattle.line_server.specs.Connection.{CanRead};
ghost use Rattle.futures_lite.specs.Contexts.{Keeps};

use crate::session::{Session, Then, last_words, put_line};
use connections::limit::{Limit, Reason};
use framed::{FrameError, FramedRead, LineDelimited};
use futures_lite::io::{AsyncBufRead, AsyncWrite, CountedRead};
use futures_lite::{Context, Poll, Stream, ready};
use std::alloc::AllocError;
use std::sync::Arc;
use std::time::Clock;
use std::{io, mem};
use tokio::sync::{Notify, OwnedSemaphorePermit};

/// How many steps a connection makes before another one has its turn.
const STEPS: u32 = 64;

/// How many seconds a client may take for a request.
pub const PATIENCE: u64 = 3;

/// How many seconds the last replies may take, and what the client still sends is dropped.
const LAST: u64 = 2;

/// What is read of a client.
#[derive(Drop)]
pub enum Input<R: AsyncBufRead> {
    /// Requests.
    Requests(FramedRead<R, LineDelimited>),
    /// Bytes that are dropped. A socket that is closed with unread bytes resets its connection, and then the client may
    /// lose the last replies.
    Rest(R),
    /// Nothing more.
    Nothing,
}

/// What a step has done.
#[derive(Clone, Copy, PartialEq, Eq)]
enum Step {
    /// Something; there may be more to do.
    Done,
    /// Nothing, until the socket is ready.
    Waits,
    /// The connection has ended.
    Ended,
}

/// A client's connection, with its place among the others.
#[derive(Drop)]
pub struct Connection<'a, C, R: AsyncBufRead, W> {
    pub input: Input<R>,
    pub writer: W,
    /// The replies that are being written, and how many of their bytes were.
    pub out: Vec<u8>,
    pub written: usize,
    pub session: Session,
    pub limit: Limit<'a, C>,
    pub stop: Arc<Notify>,
    pub seat: OwnedSemaphorePermit,
    /// Whether a request came since the time was last moved.
    pub is_active: bool,
    /// Whether the client was told that no reply follows.
    pub is_closed: bool,
}

impl<C: Clock, R: AsyncBufRead + CountedRead + Drop, W: AsyncWrite> Connection<'_, C, R, W> {
    /// Makes steps until the socket is not ready, or it is another's turn.
    fn go(&mut self, cx: &mut Context<'_>) -> Poll<()>
        requires { CanRead (λ r. R.ranks.counts r) self.old.input }
        ensures again { CanRead (λ r. R.ranks.counts r) self.new.input }
        ensures context { Keeps cx.old cx.new }
    {
        for _ in 0..STEPS {
            match self.step(cx) {
                Step::Done => {}
                Step::Waits => return Poll::Pending,
                Step::Ended => return Poll::Ready(()),
            }
        }
        cx.yield_now()
    }

    /// Writes of the replies, or takes the next request.
    fn step(&mut self, cx: &mut Context<'_>) -> Step
        requires { CanRead (λ r. R.ranks.counts r) self.old.input }
        ensures again { CanRead (λ r. R.ranks.counts r) self.new.input }
        ensures context { Keeps cx.old cx.new }
    {
        if self.written < self.out.len() {
            return self.write(cx);
        }
        match &mut self.input {
            Input::Requests(requests) => match requests.poll_next(cx) {
                Poll::Ready(Some(Ok(line))) => self.answer(line.as_slice()),
                Poll::Ready(Some(Err(e))) => self.leave(last_words(&e)),
                Poll::Ready(None) => self.leave(""),
                Poll::Pending => self.flush(cx),
            },
            Input::Rest(_) if !self.is_closed => self.close(cx),
            Input::Rest(reader) => drop_some(reader, cx),
            Input::Nothing => Step::Ended,
        }
    }

    fn write(&mut self, cx: &mut Context<'_>) -> Step
        ensures input { self.new.input ≡ self.old.input }
        ensures context { Keeps cx.old cx.new }
    {
        let left = self.out.get(self.written..).unwrap_or_default();
        match self.writer.poll_write(cx, left) {
            Poll::Ready(Ok(0)) => Step::Ended,
            Poll::Ready(Ok(n)) => {
                self.written = self.written.saturating_add(n);
                Step::Done
            }
            Poll::Ready(Err(_)) => Step::Ended,
            Poll::Pending => Step::Waits,
        }
    }

    /// Replies to a request. Its reply is the next that is written.
    fn answer(&mut self, request: &[u8]) -> Step
        requires { CanRead (λ r. R.ranks.counts r) self.old.input }
        ensures { CanRead (λ r. R.ranks.counts r) self.new.input }
    {
        self.is_active = true;
        self.written = 0;
        self.out.clear();
        match self.session.answer(request, &mut self.out) {
            Ok(Then::GoOn) => Step::Done,
            Ok(Then::Quit) => self.leave(""),
            Ok(Then::Stop) => {
                self.stop.notify_waiters();
                self.leave("")
            }
            Err(_) => Step::Ended,
        }
    }

    /// Sends what is written, since no request is there.
    fn flush(&mut self, cx: &mut Context<'_>) -> Step
        ensures input { self.new.input ≡ self.old.input }
        ensures context { Keeps cx.old cx.new }
    {
        match self.writer.poll_flush(cx) {
            Poll::Ready(Err(_)) => Step::Ended,
            _ => Step::Waits,
        }
    }

    /// Reads no more requests. The last words, if there are any, are written behind the replies.
    fn leave(&mut self, words: &str) -> Step
        requires { CanRead (λ r. R.ranks.counts r) self.old.input }
        ensures { CanRead (λ r. R.ranks.counts r) self.new.input }
    {
        if !words.is_empty() && put_line(&mut self.out, words.as_bytes()).is_err() {
            return Step::Ended;
        }
        let Input::Requests(requests) = mem::replace(&mut self.input, Input::Nothing) else {
            return Step::Ended;
        };
        self.input = Input::Rest(requests.into_parts().reader);
        match self.limit.allow(LAST) {
            Ok(()) => Step::Done,
            Err(_) => Step::Ended,
        }
    }

    /// Ends what is sent.
    fn close(&mut self, cx: &mut Context<'_>) -> Step
        ensures input { self.new.input ≡ self.old.input }
        ensures context { Keeps cx.old cx.new }
    {
        match self.writer.poll_close(cx) {
            Poll::Ready(Ok(())) => {
                self.is_closed = true;
                Step::Done
            }
            Poll::Ready(Err(_)) => Step::Ended,
            Poll::Pending => Step::Waits,
        }
    }

    /// Does what there is to do for a reason to end.
    fn heed(&mut self, reason: Reason) -> Step
        requires { CanRead (λ r. R.ranks.counts r) self.old.input }
        ensures { CanRead (λ r. R.ranks.counts r) self.new.input }
    {
        match (&self.input, reason) {
            (Input::Requests(_), Reason::Stopped) => self.leave("ERROR the server stops"),
            (Input::Requests(_), Reason::Late) if !self.is_active => {
                self.leave("ERROR no request came in time")
            }
            (Input::Requests(_), Reason::Late) => {
                self.is_active = false;
                match self.limit.allow(PATIENCE) {
                    Ok(()) => Step::Done,
                    Err(_) => Step::Ended,
                }
            }
            (_, Reason::Stopped) => Step::Done,
            (_, Reason::Late) => Step::Ended,
        }
    }
}

/// Drops what a reader has.
fn drop_some<R: AsyncBufRead>(reader: &mut R, cx: &mut Context<'_>) -> Step
    ensures { Keeps cx.old cx.new }
{
    let count = match reader.poll_fill_buf(cx) {
        Poll::Ready(Ok(bytes)) => bytes.len(),
        Poll::Ready(Err(_)) => return Step::Ended,
        Poll::Pending => return Step::Waits,
    };
    if count == 0 {
        return Step::Ended;
    }
    reader.consume(count);
    Step::Done
}

impl<C: Clock, R: AsyncBufRead + CountedRead + Drop, W: AsyncWrite + Drop> futures::Future
    for Connection<'_, C, R, W> {
    type Output = ();

    ghost can_poll = { λ c. CanRead (λ r. R.ranks.counts r) c.input };

    fn poll(&mut self, cx: &mut Context<'_>) -> Poll<()> {
        match self.limit.poll_reason(cx) {
            Poll::Ready(reason) => match self.heed(reason) {
                Step::Ended => Poll::Ready(()),
                _ => cx.yield_now(),
            },
            Poll::Pending => {
                ready!(self.go(cx));
                Poll::Ready(())
            }
        }
    }
}
