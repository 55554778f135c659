//! A connection, as a task.
ghost use Rattle.std.specs.Prelude.{◌≡◌, ◌≤◌, length};

use crate::hall::Hall;
use bytes::BytesMut;
use chat_session::session::{Next, Session};
use framed::FrameError;
use futures::task::Source;
use futures_lite::io::AsyncWrite;
use futures_lite::{Context, Poll, Stream};
use std::cell::RefCell;
use std::rc::Rc;

/// A session, and the hall that it shares with the others.
#[derive(Drop)]
pub struct Task<S, W> {
    session: Session<S, W>,
    hall: Rc<RefCell<Hall>>,
    source: Source,
}

impl<S, W> Task<S, W> {
    /// Returns the task of a session whose member has a seat.
    pub fn new(session: Session<S, W>, hall: Rc<RefCell<Hall>>) -> Task<S, W>
        ensures { result.session ≡ session }
    {
        Task {
            session,
            hall,
            source: Source::new(),
        }
    }
}

impl<S, W> futures::Future for Task<S, W>
where
    S: Stream<Item = Result<BytesMut, FrameError>> + Drop,
    W: AsyncWrite + Drop,
{
    type Output = ();

    ghost can_poll = { λ t. S.can_poll t.session.frames × (t.session.written ≤ length t.session.line) };

    fn poll(&mut self, cx: &mut Context<'_>) -> Poll<()> {
        let Ok(mut hall) = self.hall.try_borrow_mut() else {
            return cx.yield_now();
        };
        let seat = self.session.seat;
        let said = hall.room.said();
        let next = self.session.turn(&mut hall.room, cx);
        if hall.room.said() != said {
            hall.ring(seat);
        }
        match next {
            Next::Wait if !hall.is_behind(seat) => hall.wait(cx, &self.source, seat),
            Next::Step => cx.yield_now(),
            _ => {
                if next == Next::EndTooLong {
                    self.session.warn(cx);
                }
                hall.leave(seat, &self.session.name);
                Poll::Ready(())
            }
        }
    }
}
