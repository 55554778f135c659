//! One connection, as a task.
ghost use Rattle.std.specs.Prelude.{◌≡◌};
ghost use Rattle.redis_server.specs.Stages.{CanServe};
ghost use Rattle.futures_lite.specs.Contexts.{Keeps};

use connections::ending::Ending;
use connections::limit::{Limit, Reason};
use framed::FramesError;
use futures_lite::io::{AsyncBufRead, AsyncWrite, CountedRead};
use futures_lite::{Context, Poll};
use redis_session::client::{Client, Told};
use redis_session::cutter::RequestCutter;
use redis_session::refusal::Refusal;
use redis_session::session::{Left, leave_session, poll_session};
use serving::{Serving, ServingError};
use std::mem;
use std::rc::Rc;
use std::sync::Arc;
use std::time::Clock;
use tokio::sync::{Notify, OwnedSemaphorePermit};

/// How many seconds a client may take for a request.
pub const PATIENCE: u64 = 3;

/// How many seconds the last replies may take, and what the client still sends is dropped.
const LAST: u64 = 2;

/// How far a connection is.
#[derive(Drop)]
pub enum Stage<R: AsyncBufRead, W> {
    /// Requests are served.
    Serves(Serving<R, RequestCutter, W, Client>),
    /// No more requests are taken.
    Ends(Ending<R, W>),
    /// It is over.
    Over,
}

/// A client's connection, with its place among the others.
#[derive(Drop)]
pub struct Connection<'a, C, R: AsyncBufRead, W> {
    pub stage: Stage<R, W>,
    pub told: Rc<Told>,
    pub limit: Limit<'a, C>,
    pub stop: Arc<Notify>,
    pub seat: OwnedSemaphorePermit,
}

impl<C: Clock, R: AsyncBufRead + CountedRead + Drop, W: AsyncWrite + Drop> Connection<'_, C, R, W> {
    /// Goes on with the requests, or with the end.
    fn go(&mut self, cx: &mut Context<'_>) -> Poll<()>
        requires { CanServe (λ r. R.ranks.counts r) self.old.stage }
        ensures again { CanServe (λ r. R.ranks.counts r) self.new.stage }
        ensures context { Keeps cx.old cx.new }
    {
        match &mut self.stage {
            Stage::Serves(serving) => match poll_session(serving, cx) {
                Poll::Ready(value) => {
                    self.end(value);
                    cx.yield_now()
                }
                Poll::Pending => Poll::Pending,
            },
            Stage::Ends(ending) => ending.poll_ended(cx),
            Stage::Over => Poll::Ready(()),
        }
    }

    /// Does what there is to do behind the requests. The last words to an error of the input were written before.
    fn end(&mut self, value: Result<(), ServingError<Refusal>>)
        ensures { CanServe (λ r. R.ranks.counts r) self.new.stage }
    {
        if self.told.wants_stop.get() {
            self.stop.notify_waiters();
        }
        match value {
            Ok(()) => self.leave(b""),
            Err(ServingError::Input(FramesError::Reader(_))) | Err(ServingError::Output(_)) => {
                self.stage = Stage::Over;
            }
            Err(ServingError::Input(FramesError::NoFrame(_))) => self.leave(b""),
            Err(_) => self.leave(b"ERR out of memory"),
        }
    }

    /// Takes no more requests. The last words, if there are any, are written behind the replies.
    fn leave(&mut self, words: &[u8])
        ensures { CanServe (λ r. R.ranks.counts r) self.new.stage }
    {
        let Stage::Serves(serving) = mem::replace(&mut self.stage, Stage::Over) else {
            return;
        };
        let Ok(
            Left {
                reader,
                writer,
                out,
            },
        ) = leave_session(serving, words)
        else {
            return;
        };
        if self.limit.allow(LAST).is_ok() {
            self.stage = Stage::Ends(Ending::new(reader, writer, out));
        }
    }

    /// Does what there is to do for a reason to end.
    fn heed(&mut self, reason: Reason)
        requires { CanServe (λ r. R.ranks.counts r) self.old.stage }
        ensures { CanServe (λ r. R.ranks.counts r) self.new.stage }
    {
        match (&self.stage, reason) {
            (Stage::Serves(_), Reason::Stopped) => self.leave(b"ERR the server stops"),
            (Stage::Serves(_), Reason::Late) => self.wait_on(),
            (_, Reason::Stopped) => {}
            (_, Reason::Late) => self.stage = Stage::Over,
        }
    }

    /// Lets the client have more time if it has asked for something, and else leaves.
    fn wait_on(&mut self)
        requires { CanServe (λ r. R.ranks.counts r) self.old.stage }
        ensures { CanServe (λ r. R.ranks.counts r) self.new.stage }
    {
        if !self.told.has_asked.replace(false) {
            self.leave(b"ERR no request came in time");
        } else if self.limit.allow(PATIENCE).is_err() {
            self.stage = Stage::Over;
        }
    }
}

impl<C: Clock, R: AsyncBufRead + CountedRead + Drop, W: AsyncWrite + Drop> futures::Future
    for Connection<'_, C, R, W> {
    type Output = ();

    ghost can_poll = { λ c. CanServe (λ r. R.ranks.counts r) c.stage };

    fn poll(&mut self, cx: &mut Context<'_>) -> Poll<()> {
        match self.limit.poll_reason(cx) {
            Poll::Ready(reason) => {
                self.heed(reason);
                cx.yield_now()
            }
            Poll::Pending => self.go(cx),
        }
    }
}
