//! What a room guarantees over time. The function does nothing: its contract is the law.
ghost use Rattle.std.specs.Prelude.{List, ℕ};
ghost use Rattle.chat_room.specs.Runs.{Event, Happened, Routed};

use crate::room::Room;

/// A member who stays, and does not fall behind, is told each line that another one says, once and in order.
#[tactic(auto, using(crate::proofs::Histories::routed))]
pub fn routed(_before: &Room, _after: &Room)
    ensures { (seat : ℕ) (es : List Event) → Happened _before.now es _after.now → Routed seat _before.now es _after.now }
{}
