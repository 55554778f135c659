//! All seats of a room.
ghost use Rattle.std.specs.Prelude.{◌≡◌, ◌++◌, ◌∷◌, ◌<◌, ◌≤◌, [], IfNone, IfOk, IsSome, OnErr, length, option_to_list};
ghost use Rattle.chat_room.specs.Rooms.{Said, Same, Told, fresh, seated_at, vacant};

use crate::seat::{Place, Seat};
use bytes::Bytes;
use std::alloc::{AllocError, Global};
use std::marker::Model;

/// A room. The number of its seat names a member.
#[derive(Drop)]
pub struct Room {
    seats: Vec<Seat>,
    alloc: Global,
    bound: usize,
    // How many lines were said.
    said: u64,
}

impl Model for Room {
    ghost use Rattle.std.specs.Prelude.{List};
    ghost use Rattle.chat_room.specs.Seats.{Seated};

    ghost Value = { List Seated };

    ghost view = { λ r. r.seats.items };
}

impl Room {
    /// Returns an empty room, in which `bound` lines may wait for a member.
    pub fn new(alloc: Global, bound: usize) -> Room
        ensures { result ≡ [] }
    {
        Room {
            seats: Vec::new(alloc),
            alloc,
            bound,
            said: 0,
        }
    }

    /// Seats a member, and returns the number of its seat. If memory is refused, nothing changes.
    #[tactic(auto, using(crate::proofs::Pushed::push_other))]
    pub fn join(&mut self) -> Result<usize, AllocError>
        ensures free { IfOk result (λ seat. (seated_at self.old seat).place ≡ Place.Free) }
        ensures seated { IfOk result (λ seat. seated_at self.new seat ≡ fresh) }
        ensures others { IfOk result (λ seat. Same seat self.old self.new) }
        ensures unchanged { OnErr result (self.new ≡ self.old) }
    {
        let seat = free_seat(self.seats.as_slice());
        if seat < self.seats.len() {
            self.seats[seat].seat();
            return Ok(seat);
        }
        match self.seats.push(Seat::taken(self.alloc)) {
            Ok(()) => Ok(seat),
            Err(_) => Err(AllocError),
        }
    }

    /// Frees a seat, and drops the lines that wait there.
    pub fn leave(&mut self, seat: usize)
        ensures left { seated_at self.new seat ≡ vacant }
        ensures others { Same seat self.old self.new }
    {
        if seat < self.seats.len() {
            self.seats[seat].free();
        }
    }

    /// Returns who sits at a seat.
    pub fn place(&self, seat: usize) -> Place
        ensures { result ≡ (seated_at self.now seat).place }
    {
        if seat < self.seats.len() {
            self.seats[seat].place()
        } else {
            Place::Free
        }
    }

    /// Takes the line that has waited longest for the member at a seat. Returns `None` if no line waits.
    pub fn take(&mut self, seat: usize) -> Option<Bytes>
        ensures line { (seated_at self.old seat).waiting ≡ option_to_list result ++ (seated_at self.new seat).waiting }
        ensures place { (seated_at self.new seat).place ≡ (seated_at self.old seat).place }
        ensures others { Same seat self.old self.new }
        ensures none { IfNone result (self.new ≡ self.old) }
        ensures some { 0 < length (seated_at self.old seat).waiting → IsSome result }
    {
        if seat < self.seats.len() && self.seats[seat].has_line() {
            self.seats[seat].take()
        } else {
            None
        }
    }

    /// Returns whether a line waits for the member at a seat, or that member fell behind.
    pub fn has_waiting(&self, seat: usize) -> bool {
        seat < self.seats.len() && self.seats[seat].has_waiting()
    }

    /// Tells a line to each member except the one at the seat `from`, who says it.
    pub fn say(&mut self, from: usize, line: &Bytes)
        ensures { Said from line.now self.old self.new }
    {
        self.said = self.said.wrapping_add(1);
        tell_all(self.seats.as_mut_slice(), from, line, self.bound);
    }

    /// Returns a number that changes whenever a line is said.
    pub fn said(&self) -> u64 {
        self.said
    }
}

// Returns the number of the first free seat. If there is none, it is that behind the last.
fn free_seat(seats: &[Seat]) -> usize
    ensures within { result ≤ length seats.now }
    ensures free { (seated_at seats.now result).place ≡ Place.Free }
{
    for (number, seat) in seats.iter().enumerate() {
        if seat.place() == Place::Free {
            return number;
        }
    }
    seats.len()
}

fn tell_all(seats: &mut [Seat], from: usize, line: &Bytes, bound: usize)
    ensures { Said from line.now seats.old seats.new }
{
    for (number, seat) in seats.iter_mut().enumerate() {
        tell(seat, number, from, line, bound);
    }
}

// Tells the member at the seat `number` a line of the one at the seat `from`.
fn tell(seat: &mut Seat, number: usize, from: usize, line: &Bytes, bound: usize)
    ensures { Told from line.now number seat.old seat.new }
{
    if number != from {
        seat.hear(line, bound);
    }
}
