//! What a session does over time. The function does nothing: its contract is the law.
ghost use Rattle.std.specs.Prelude.{List};
ghost use Rattle.std.specs.List.{FoldsTo, flat_map};
ghost use Rattle.chat_room.specs.Runs.{Happened};
ghost use Rattle.chat_session.specs.Acts.{Act, Acts, Delivered, Stand, events};

use crate::session::Session;
use bytes::BytesMut;
use framed::FrameError;
use futures_lite::Stream;
use futures_lite::io::AsyncWrite;

/// What a session writes is what it took from the room, and what it did in the room is a history of the room.
#[tactic(auto, using(crate::proofs::Deliver::delivered, crate::proofs::Deliver::happened))]
pub fn delivered<S, W>(before: &Session<S, W>, after: &Session<S, W>)
where
    S: Stream<Item = Result<BytesMut, FrameError>>,
    W: AsyncWrite,
    ensures written { (r q : _) (acts : List Act) → FoldsTo (Acts (λ b. b.items) S.run W.writes) (before.now, r) acts (after.now, q)
        → Delivered before.now acts after.now }
    ensures room { (r q : _) (acts : List Act) → FoldsTo (Acts (λ b. b.items) S.run W.writes) (before.now, r) acts (after.now, q)
        → Happened r (flat_map (events before.now.seat before.now.name) acts) q }
{}
