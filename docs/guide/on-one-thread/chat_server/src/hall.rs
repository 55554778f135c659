//! The room that all tasks share, and how a task is woken for a line.
ghost use Rattle.std.specs.Prelude.{◌≡◌};
ghost use Rattle.futures_lite.specs.Contexts.{Keeps};
ghost use Rattle.futures.specs.Task.{IsArmed};

use bytes::Bytes;
use chat_room::frame::frame;
use chat_room::room::Room;
use chat_room::seat::Place;
use futures::task::{Source, Waker};
use futures_lite::{Context, Poll};
use std::alloc::{AllocError, Global};
use std::cell::RefCell;
use std::rc::Rc;

/// How many lines may wait for a member.
const WAITING: usize = 4096;

/// How many members there may be.
pub const MEMBERS: usize = 500;

/// The room, and for each seat the task that is to be woken when a line comes for it.
#[derive(Drop)]
pub struct Hall {
    pub room: Room,
    alloc: Global,
    bells: Vec<Option<Waker>>,
    members: usize,
}

impl Hall {
    /// Returns an empty hall.
    pub fn shared(alloc: Global) -> Result<Rc<RefCell<Hall>>, AllocError> {
        let hall = Hall {
            room: Room::new(alloc, WAITING),
            alloc,
            bells: Vec::new(alloc),
            members: 0,
        };
        Ok(Rc::new(alloc, RefCell::new(hall))?)
    }

    /// Seats a member of this name, and tells the others so. Returns `None` if all seats are taken.
    pub fn join(&mut self, name: &Bytes) -> Result<Option<usize>, AllocError> {
        if self.members >= MEMBERS {
            return Ok(None);
        }
        if self.bells.len() <= self.members {
            self.bells.push(None)?;
        }
        let line = frame(self.alloc, name.as_slice(), b" has joined", b"")?;
        let seat = self.room.join()?;
        self.members += 1;
        self.room.say(seat, &line);
        self.ring(seat);
        Ok(Some(seat))
    }

    /// Frees the seat of the member of this name, and tells the others so.
    pub fn leave(&mut self, seat: usize, name: &Bytes) {
        self.room.leave(seat);
        self.members = self.members.saturating_sub(1);
        if seat < self.bells.len() {
            self.bells[seat] = None;
        }
        if let Ok(line) = frame(self.alloc, name.as_slice(), b" has left", b"") {
            self.room.say(seat, &line);
            self.ring(seat);
        }
    }

    /// Wakes the tasks of the members for whom a line waits, except that of the seat `from`.
    pub fn ring(&mut self, from: usize) {
        for (seat, bell) in self.bells.iter_mut().enumerate() {
            if seat != from
                && self.room.has_waiting(seat)
                && let Some(waker) = bell.take()
            {
                waker.wake();
            }
        }
    }

    /// Returns whether the member at a seat fell behind.
    pub fn is_behind(&self, seat: usize) -> bool {
        self.room.place(seat) == Place::Behind
    }

    /// Has the task of this poll woken when a line comes for its seat.
    pub fn wait(&mut self, cx: &mut Context<'_>, source: &Source, seat: usize) -> Poll<()>
        ensures pending { result ≡ Poll.Pending }
        ensures armed { IsArmed cx.new }
        ensures context { Keeps cx.old cx.new }
    {
        if seat < self.bells.len() {
            cx.register(source, &mut self.bells[seat])
        } else {
            cx.yield_now()
        }
    }
}
