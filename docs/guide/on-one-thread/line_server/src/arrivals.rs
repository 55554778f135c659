//! The connections that come.
ghost use Rattle.std.specs.Prelude.{◌≡◌, IfOk, IfSome};
ghost use Rattle.futures.specs.Poll.{OnPending};
ghost use Rattle.futures.specs.Task.{IsArmed, Keeps};

use crate::connection::{Connection, Input, PATIENCE};
use crate::session::{Session, put_line};
use crate::store::Store;
use compat::{Compat, CompatExt};
use connections::limit::Limit;
use framed::{FramedRead, LineDelimited};
use futures::Future;
use futures_lite::io::{Budgeted, BufReader, BufWriter};
use futures_lite::{AsyncReadExt, Context, Poll};
use std::alloc::{AllocError, AllocGlobal};
use std::cell::RefCell;
use std::io;
use std::rc::Rc;
use std::sync::Arc;
use std::time::{Clock, Duration};
use tokio::net::{OwnedReadHalf, OwnedWriteHalf, TcpListener, TcpStream};
use tokio::sync::{Notify, OwnedSemaphorePermit, Semaphore};
use tokio::time::{Handle, Sleep};

/// How many connections are served at once.
const SEATS: usize = 2000;

/// How many connections are told at once that there is no seat.
const EXITS: usize = 100;

/// How many connections are accepted in a row before another task has its turn.
const ACCEPTED: u32 = 16;

/// How many milliseconds pass after a connection that could not be accepted.
const PAUSE: u64 = 50;

/// How many bytes a line has at most.
const LINE: usize = 1000;

/// How many bytes are read in a row before another connection has its turn.
const BYTES: usize = 1 << 14;

/// How many bytes each buffer of a connection has.
const ROOM: usize = 1 << 10;

/// What is read of a socket.
pub type Reader = BufReader<Budgeted<Compat<OwnedReadHalf>>>;

/// What is written to a socket.
pub type Writer = BufWriter<Compat<OwnedWriteHalf>>;

/// A connection for each client that comes. It has no end.
#[derive(Drop)]
pub struct Arrivals<'a, C> {
    rt: &'a C,
    listener: TcpListener,
    time: Handle,
    store: Rc<RefCell<Store>>,
    stop: Arc<Notify>,
    seats: Arc<Semaphore>,
    exits: Arc<Semaphore>,
    pause: Option<Sleep>,
}

impl<'a, C: Clock + AllocGlobal> Arrivals<'a, C> {
    /// Returns the connections of a listener.
    pub fn new(
        rt: &'a C,
        listener: TcpListener,
        time: Handle,
        stop: Arc<Notify>,
    ) -> Result<Arrivals<'a, C>, AllocError> {
        let alloc = rt.alloc();
        Ok(Arrivals {
            rt,
            listener,
            time,
            store: Rc::new(alloc, RefCell::new(Store::new(alloc)))?,
            stop,
            seats: Arc::new(alloc, Semaphore::new(alloc, SEATS)?)?,
            exits: Arc::new(alloc, Semaphore::new(alloc, EXITS)?)?,
            pause: None,
        })
    }

    /// Takes a seat or, if there is none, an exit. Returns it with whether it is a seat.
    fn place(&self) -> Result<Option<(OwnedSemaphorePermit, bool)>, AllocError> {
        if let Ok(seat) = Semaphore::try_acquire_owned(Arc::try_clone(&self.seats)?) {
            return Ok(Some((seat, true)));
        }
        match Semaphore::try_acquire_owned(Arc::try_clone(&self.exits)?) {
            Ok(exit) => Ok(Some((exit, false))),
            Err(_) => Ok(None),
        }
    }

    /// Makes the task of a connection. Without a seat its client is told so, and without an exit it is closed.
    fn admit(&self, stream: TcpStream) -> io::Result<Option<Connection<'a, C, Reader, Writer>>> {
        let alloc = self.rt.alloc();
        let Some((seat, is_seated)) = self.place()? else {
            return Ok(None);
        };
        stream.set_nodelay(true)?;
        let (input, output) = stream.into_split()?;
        let Ok(reader) = BufReader::with_capacity(alloc, ROOM, input.compat().with_budget(BYTES))
        else {
            return Err(AllocError.into());
        };
        let Ok(writer) = BufWriter::with_capacity(alloc, ROOM, output.compat()) else {
            return Err(AllocError.into());
        };
        let mut out = Vec::new(alloc);
        let input = if is_seated {
            Input::Requests(FramedRead::new(alloc, reader, LineDelimited { max: LINE }))
        } else {
            put_line(&mut out, b"ERROR too many connections")?;
            Input::Rest(reader)
        };
        let stopped = Notify::notified_owned(Arc::try_clone(&self.stop)?);
        Ok(Some(Connection {
            input,
            writer,
            out,
            written: 0,
            session: Session::new(alloc, self.store.clone()?),
            limit: Limit::new(self.rt, &self.time, PATIENCE, stopped)?,
            stop: Arc::try_clone(&self.stop)?,
            seat,
            is_active: false,
            is_closed: false,
        }))
    }

    /// Accepts no connection for a while. While the process has no descriptor left, each accept fails at once.
    fn rest(&mut self) {
        if let Ok(sleep) = self.time.sleep(self.rt, Duration::from_millis(PAUSE)) {
            self.pause = Some(sleep);
        }
    }

    /// Waits until the pause is over, if there is one.
    fn poll_rested(&mut self, cx: &mut Context<'_>) -> Poll<()>
        ensures armed { OnPending result (IsArmed cx.new) }
        ensures context { Keeps cx.old cx.new }
    {
        let Some(sleep) = &mut self.pause else {
            return Poll::Ready(());
        };
        match sleep.poll(cx) {
            Poll::Ready(_) => {
                self.pause = None;
                Poll::Ready(())
            }
            Poll::Pending => Poll::Pending,
        }
    }
}

impl<'a, C: Clock + AllocGlobal> futures::Stream for Arrivals<'a, C> {
    type Item = Connection<'a, C, Reader, Writer>;

    ghost yields = { λ _ _ last. IfSome last (λ c. ⟦<Connection<'a, C, Reader, Writer> as futures::Future>⟧.can_poll c) };

    fn poll_next(
        &mut self,
        cx: &mut Context<'_>,
    ) -> Poll<Option<Connection<'a, C, Reader, Writer>>> {
        for _ in 0..ACCEPTED {
            if let Poll::Pending = self.poll_rested(cx) {
                return Poll::Pending;
            }
            match self.listener.poll_accept(cx) {
                Poll::Ready(Ok((stream, _))) => {
                    if let Ok(Some(connection)) = self.admit(stream) {
                        return Poll::Ready(Some(connection));
                    }
                }
                Poll::Ready(Err(_)) => self.rest(),
                Poll::Pending => return Poll::Pending,
            }
        }
        cx.yield_now()
    }
}
