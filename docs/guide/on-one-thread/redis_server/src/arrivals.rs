//! The connections that come.
ghost use Rattle.std.specs.Prelude.{◌≡◌, IfOk, IfSome};
ghost use Rattle.futures.specs.Poll.{OnPending};
ghost use Rattle.futures.specs.Task.{IsArmed, Keeps};

use crate::connection::{Connection, PATIENCE, Stage};
use compat::{Compat, CompatExt};
use connections::ending::Ending;
use connections::limit::Limit;
use example_redis::limits::Limits;
use example_redis::store::Store;
use futures::Future;
use futures_lite::io::{Budgeted, BufReader};
use futures_lite::{AsyncReadExt, Context, Poll};
use redis_session::client::{Client, Told};
use redis_session::cutter::RequestCutter;
use redis_session::pushing::push_line;
use serving::Serving;
use std::alloc::{AllocError, AllocGlobal};
use std::cell::RefCell;
use std::io;
use std::rc::Rc;
use std::sync::Arc;
use std::time::{Clock, Duration};
use tokio::net::{OwnedReadHalf, OwnedWriteHalf, TcpListener, TcpStream};
use tokio::sync::{Notify, OwnedSemaphorePermit, Semaphore};
use tokio::time::{Handle, Sleep};

/// How many connections are served at once.
const SEATS: usize = 2000;

/// How many connections are told at once that there is no seat.
const EXITS: usize = 100;

/// How many connections are accepted in a row before another task has its turn.
const ACCEPTED: u32 = 16;

/// How many milliseconds pass after a connection that could not be accepted.
const PAUSE: u64 = 50;

/// How many words an array has at most.
const WORDS: u32 = 1 << 10;

/// How many bytes a word has at most.
const WORD: u32 = 1 << 16;

/// How many bytes the words of a request have at most, each with 16 bytes more.
const REQUEST: u32 = 1 << 17;

/// How many bytes a line has at most.
const LINE: u32 = 1 << 12;

/// How many bytes of replies wait for a client before its requests are read no more.
const WAITING: usize = 1 << 20;

/// How many bytes keys and values have in all at most, each entry with 96 bytes more.
const MOST_BYTES: usize = 1 << 28;

/// How many bytes are read in a row before another connection has its turn.
const BYTES: usize = 1 << 14;

/// How many bytes the buffer of a connection's input has.
const ROOM: usize = 1 << 12;

/// How large a request may be.
const LIMITS: Limits = Limits {
    words: WORDS,
    word: WORD,
    request: REQUEST,
    line: LINE,
};

/// What is read of a socket.
pub type Reader = BufReader<Budgeted<Compat<OwnedReadHalf>>>;

/// What is written to a socket.
pub type Writer = Compat<OwnedWriteHalf>;

/// A connection for each client that comes. It has no end.
#[derive(Drop)]
pub struct Arrivals<'a, C> {
    rt: &'a C,
    listener: TcpListener,
    time: Handle,
    store: Rc<RefCell<Store>>,
    stop: Arc<Notify>,
    seats: Arc<Semaphore>,
    exits: Arc<Semaphore>,
    pause: Option<Sleep>,
}

impl<'a, C: Clock + AllocGlobal> Arrivals<'a, C> {
    /// Returns the connections of a listener.
    pub fn new(
        rt: &'a C,
        listener: TcpListener,
        time: Handle,
        stop: Arc<Notify>,
    ) -> Result<Arrivals<'a, C>, AllocError> {
        let alloc = rt.alloc();
        Ok(Arrivals {
            rt,
            listener,
            time,
            store: Rc::new(alloc, RefCell::new(Store::new(alloc, MOST_BYTES)))?,
            stop,
            seats: Arc::new(alloc, Semaphore::new(alloc, SEATS)?)?,
            exits: Arc::new(alloc, Semaphore::new(alloc, EXITS)?)?,
            pause: None,
        })
    }

    /// Takes a seat or, if there is none, an exit. Returns it with whether it is a seat.
    fn place(&self) -> Result<Option<(OwnedSemaphorePermit, bool)>, AllocError> {
        if let Ok(seat) = Semaphore::try_acquire_owned(Arc::try_clone(&self.seats)?) {
            return Ok(Some((seat, true)));
        }
        match Semaphore::try_acquire_owned(Arc::try_clone(&self.exits)?) {
            Ok(exit) => Ok(Some((exit, false))),
            Err(_) => Ok(None),
        }
    }

    /// Makes the task of a connection. Without a seat its client is told so, and without an exit it is closed.
    fn admit(&self, stream: TcpStream) -> io::Result<Option<Connection<'a, C, Reader, Writer>>> {
        let alloc = self.rt.alloc();
        let Some((seat, is_seated)) = self.place()? else {
            return Ok(None);
        };
        stream.set_nodelay(true)?;
        let (input, output) = stream.into_split()?;
        let Ok(reader) = BufReader::with_capacity(alloc, ROOM, input.compat().with_budget(BYTES))
        else {
            return Err(AllocError.into());
        };
        let told = Rc::new(alloc, Told::nothing())?;
        let stage = if is_seated {
            let client = Client::new(alloc, LIMITS, self.store.clone()?, told.clone()?);
            let requests = RequestCutter { limits: LIMITS };
            let serving = Serving::new(alloc, reader, requests, output.compat(), client);
            Stage::Serves(serving.with_limit(WAITING))
        } else {
            let mut out = Vec::new(alloc);
            push_line(b"-", b"ERR max number of clients reached", &mut out)?;
            Stage::Ends(Ending::new(reader, output.compat(), out))
        };
        let stopped = Notify::notified_owned(Arc::try_clone(&self.stop)?);
        Ok(Some(Connection {
            stage,
            told,
            limit: Limit::new(self.rt, &self.time, PATIENCE, stopped)?,
            stop: Arc::try_clone(&self.stop)?,
            seat,
        }))
    }

    /// Accepts no connection for a while. While the process has no descriptor left, each accept fails at once.
    fn rest(&mut self) {
        if let Ok(sleep) = self.time.sleep(self.rt, Duration::from_millis(PAUSE)) {
            self.pause = Some(sleep);
        }
    }

    /// Waits until the pause is over, if there is one.
    fn poll_rested(&mut self, cx: &mut Context<'_>) -> Poll<()>
        ensures armed { OnPending result (IsArmed cx.new) }
        ensures context { Keeps cx.old cx.new }
    {
        let Some(sleep) = &mut self.pause else {
            return Poll::Ready(());
        };
        match sleep.poll(cx) {
            Poll::Ready(_) => {
                self.pause = None;
                Poll::Ready(())
            }
            Poll::Pending => Poll::Pending,
        }
    }
}

impl<'a, C: Clock + AllocGlobal> futures::Stream for Arrivals<'a, C> {
    type Item = Connection<'a, C, Reader, Writer>;

    ghost yields = { λ _ _ last. IfSome last (λ c. ⟦<Connection<'a, C, Reader, Writer> as futures::Future>⟧.can_poll c) };

    fn poll_next(
        &mut self,
        cx: &mut Context<'_>,
    ) -> Poll<Option<Connection<'a, C, Reader, Writer>>> {
        for _ in 0..ACCEPTED {
            if let Poll::Pending = self.poll_rested(cx) {
                return Poll::Pending;
            }
            match self.listener.poll_accept(cx) {
                Poll::Ready(Ok((stream, _))) => {
                    if let Ok(Some(connection)) = self.admit(stream) {
                        return Poll::Ready(Some(connection));
                    }
                }
                Poll::Ready(Err(_)) => self.rest(),
                Poll::Pending => return Poll::Pending,
            }
        }
        cx.yield_now()
    }
}
