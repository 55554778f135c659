//! One seat of a room.
ghost use Rattle.std.specs.Prelude.{◌≡◌, ◌<◌, ◌↔◌, ◌++◌, [], IsSome, IsTrue, length, option_to_list};
ghost use Rattle.chat_room.specs.Seats.{Heard, Seated};

use bytes::Bytes;
use std::alloc::Global;
use std::collections::VecDeque;
use std::marker::Model;

/// Who sits at a seat.
#[derive(Clone, Copy, PartialEq, Eq)]
pub enum Place {
    /// Nobody.
    Free,
    /// A member who is told what is said.
    Taken,
    /// A member who fell behind. It is told no more lines.
    Behind,
}

/// A seat, with the lines that its member has still to be told.
#[derive(Drop)]
pub struct Seat {
    place: Place,
    waiting: VecDeque<Bytes>,
}

impl Model for Seat {
    ghost use Rattle.chat_room.specs.Seats.{Seated};

    ghost Value = { Seated };

    ghost view = { λ s. record { place = s.place; waiting = s.waiting.items } };
}

impl Seat {
    /// Returns a seat that a member has just taken, with no line.
    pub fn taken(alloc: Global) -> Seat
        ensures { result ≡ record { place = Place.Taken; waiting = [] } }
    {
        Seat {
            place: Place::Taken,
            waiting: VecDeque::new(alloc),
        }
    }

    /// Frees the seat, and drops the lines that wait.
    pub fn free(&mut self)
        ensures { self.new ≡ record { place = Place.Free; waiting = [] } }
    {
        self.place = Place::Free;
        self.waiting.clear();
    }

    /// Seats a member, for whom no line waits yet.
    pub fn seat(&mut self)
        ensures { self.new ≡ record { place = Place.Taken; waiting = [] } }
    {
        self.place = Place::Taken;
        self.waiting.clear();
    }

    /// Returns who sits at the seat.
    pub fn place(&self) -> Place
        ensures { result ≡ self.now.place }
    {
        self.place
    }

    /// Returns whether the member's task has something to do: a line waits, or the member fell behind.
    pub fn has_waiting(&self) -> bool {
        !self.waiting.is_empty() || self.place == Place::Behind
    }

    /// Returns whether a line waits.
    pub fn has_line(&self) -> bool
        ensures { IsTrue result ↔ (0 < length self.now.waiting) }
    {
        !self.waiting.is_empty()
    }

    /// Takes the line that has waited longest. Returns `None` if no line waits.
    pub fn take(&mut self) -> Option<Bytes>
        ensures some { 0 < length self.old.waiting → IsSome result }
        ensures line { self.old.waiting ≡ option_to_list result ++ self.new.waiting }
        ensures place { self.new.place ≡ self.old.place }
    {
        self.waiting.pop_front()
    }

    /// Tells the member a line. The member falls behind if `bound` lines wait already, or if memory is refused.
    pub fn hear(&mut self, line: &Bytes, bound: usize)
        ensures { Heard line.now self.old self.new }
    {
        if self.place != Place::Taken {
            return;
        }
        if self.waiting.len() >= bound {
            self.place = Place::Behind;
            return;
        }
        let kept = match line.slice(0..line.len()) {
            Ok(copy) => self.waiting.push_back(copy).is_ok(),
            Err(_) => false,
        };
        if !kept {
            self.place = Place::Behind;
        }
    }
}
