//! The connections that come.
ghost use Rattle.std.specs.Prelude.{◌≡◌, IfOk, IfSome};
ghost use Rattle.tokio.specs.Net.{listener_readable};

use crate::hall::Hall;
use crate::task::Task;
use bytes::Bytes;
use chat_session::session::Session;
use compat::{Compat, CompatExt};
use framed::{FramedRead, LineDelimited};
use futures_lite::io::{Budgeted, BufReader, BufWriter};
use futures_lite::{AsyncReadExt, Context, Poll, StreamExt, stream};
use std::alloc::{AllocError, Global};
use std::cell::RefCell;
use std::io;
use std::net::SocketAddr;
use std::rc::Rc;
use tokio::net::{OwnedReadHalf, OwnedWriteHalf, TcpListener, TcpStream};

/// How many bytes a line has at most.
const LINE: usize = 1000;

/// How many bytes are read of a client in a row before another one has its turn.
const BYTES: usize = 1 << 16;

/// How many lines are read of a client in a row. Another client is written more than that in its turn, so that nobody falls
/// behind because one client is fast.
const LINES: usize = 16;

/// How many connections are refused in a row before a client has its turn.
const REFUSED: usize = 16;

/// The lines of a client.
pub type Frames = stream::Budgeted<
    FramedRead<BufReader<Budgeted<Compat<OwnedReadHalf>>>, LineDelimited>,
>;

/// The task of a client.
pub type Connection = Task<Frames, BufWriter<Compat<OwnedWriteHalf>>>;

/// A task for each client that comes. The stream has no end.
#[derive(Drop)]
pub struct Arrivals {
    alloc: Global,
    listener: TcpListener,
    hall: Rc<RefCell<Hall>>,
}

impl Arrivals {
    /// Returns the tasks of a listener's clients.
    pub fn new(alloc: Global, listener: TcpListener, hall: Rc<RefCell<Hall>>) -> Arrivals {
        Arrivals {
            alloc,
            listener,
            hall,
        }
    }

    /// Seats a client. If all seats are taken or memory is refused, its connection is closed.
    fn admit(&mut self, stream: TcpStream, address: SocketAddr) -> io::Result<Option<Connection>>
        ensures ready { IfOk result (λ o. IfSome o (λ c. ⟦<Connection as futures::Future>⟧.can_poll c)) }
        ensures listener { self.new.listener ≡ self.old.listener }
    {
        stream.set_nodelay(true)?;
        let name = format!(in self.alloc; "{address}")?;
        let (input, output) = stream.into_split()?;
        let input = input.compat().with_budget(BYTES);
        let Ok(reader) = BufReader::new(self.alloc, input) else {
            return Err(AllocError.into());
        };
        let Ok(writer) = BufWriter::new(self.alloc, output.compat()) else {
            return Err(AllocError.into());
        };
        let frames = FramedRead::new(self.alloc, reader, LineDelimited { max: LINE }).with_budget(
            LINES,
        );
        let hall = self.hall.clone()?;
        let name = Bytes::copy_from_slice(self.alloc, name.as_bytes())?;
        let Ok(mut open) = self.hall.try_borrow_mut() else {
            return Ok(None);
        };
        let Some(seat) = open.join(&name)? else {
            return Ok(None);
        };
        let session = Session {
            alloc: self.alloc,
            seat,
            name,
            frames,
            writer,
            line: Bytes::new(),
            written: 0,
        };
        Ok(Some(Task::new(session, hall)))
    }
}

impl futures::Stream for Arrivals {
    type Item = Connection;

    ghost needs = { λ a source. source ≡ listener_readable a.listener };

    ghost yields = { λ _ _ last. IfSome last (λ c. ⟦<Connection as futures::Future>⟧.can_poll c) };

    fn poll_next(&mut self, cx: &mut Context<'_>) -> Poll<Option<Connection>> {
        for _ in 0..REFUSED {
            match self.listener.poll_accept(cx) {
                Poll::Ready(Ok((stream, address))) => {
                    if let Ok(Some(connection)) = self.admit(stream, address) {
                        return Poll::Ready(Some(connection));
                    }
                }
                Poll::Ready(Err(_)) => {}
                Poll::Pending => return Poll::Pending,
            }
        }
        cx.yield_now()
    }
}
