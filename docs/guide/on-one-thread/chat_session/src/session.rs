//! The session of a client.
ghost use Rattle.std.specs.Prelude.{◌≡◌, ◌<◌, ◌≤◌, ◌⊎◌, List, drop, length, ℕ};
ghost use Rattle.futures_lite.specs.Contexts.{Keeps};

use bytes::{Bytes, BytesMut};
use chat_room::frame::frame;
use chat_room::room::Room;
use framed::FrameError;
use futures_lite::io::AsyncWrite;
use futures_lite::{Context, Poll, Stream};
use std::alloc::Global;

/// How many steps a session makes before another one has its turn.
const STEPS: usize = 256;

/// What is to be done with a session behind a step.
#[derive(Clone, Copy, PartialEq, Eq)]
pub enum Next {
    /// It makes another step.
    Step,
    /// It waits for its client, or for a line in the room.
    Wait,
    /// It ends, because the client has left or the connection failed.
    End,
    /// It ends, because the client sent a line that is too long.
    EndTooLong,
}

/// A client with a seat.
#[derive(Drop)]
pub struct Session<S, W> {
    pub alloc: Global,
    pub seat: usize,
    pub name: Bytes,
    /// The lines that the client sends.
    pub frames: S,
    pub writer: W,
    /// The line that is being written, and how many of its bytes were.
    pub line: Bytes,
    pub written: usize,
}

impl<S, W> Session<S, W>
where
    S: Stream<Item = Result<BytesMut, FrameError>>,
    W: AsyncWrite,
{
    ghost use Rattle.std.specs.List.{FoldsTo};
    ghost use Rattle.chat_room.specs.Rooms.{Said};
    ghost use Rattle.chat_session.specs.Acts.{Act, Acts, Idle, Writes, framed};

    /// Makes steps until the session has to wait or to end, or another one has its turn.
    pub fn turn(&mut self, room: &mut Room, cx: &mut Context<'_>) -> Next
        requires ready { S.can_poll self.old.frames × (self.old.written ≤ length self.old.line) }
        ensures again { S.can_poll self.new.frames × (self.new.written ≤ length self.new.line) }
        ensures acts { (acts : List Act) × FoldsTo (Acts (λ b. b.items) S.run W.writes) (self.old, room.old) acts (self.new, room.new)
            × (result ≡ Next.Step → 0 < length acts) }
        ensures idle { result ≡ Next.Wait → Idle self.new room.new }
        ensures context { Keeps cx.old cx.new }
    {
        for i in 0..STEPS {
            let next = self.step(room, cx);
            if next != Next::Step {
                return next;
            }
        }
        Next::Step
    }

    /// Writes some bytes of the line. If it is written, takes the next one, and if there is none, says what the client sent.
    fn step(&mut self, room: &mut Room, cx: &mut Context<'_>) -> Next
        requires ready { S.can_poll self.old.frames × (self.old.written ≤ length self.old.line) }
        ensures again { S.can_poll self.new.frames × (self.new.written ≤ length self.new.line) }
        ensures acted { (act : Act) × Acts (λ b. b.items) S.run W.writes (self.old, room.old) act (self.new, room.new) }
        ensures idle { result ≡ Next.Wait → Idle self.new room.new }
        ensures context { Keeps cx.old cx.new }
    {
        if self.written < self.line.len() {
            return self.write(cx);
        }
        match room.take(self.seat) {
            Some(line) => {
                self.line = line;
                self.written = 0;
                Next::Step
            }
            None => self.read(room, cx),
        }
    }

    /// Writes some bytes of the line.
    fn write(&mut self, cx: &mut Context<'_>) -> Next
        requires ready { self.old.written ≤ length self.old.line }
        ensures again { self.new.written ≤ length self.new.line }
        ensures pending { result ≡ Next.Wait → self.new ≡ record self.old { writer = self.new.writer } }
        ensures wrote { (bytes : List ℕ) × Writes W.writes self.old bytes self.new }
        ensures context { Keeps cx.old cx.new }
    {
        match self
            .writer
            .poll_write(cx, rest_of(self.line.as_slice(), self.written))
        {
            Poll::Ready(Ok(0)) => Next::End,
            Poll::Ready(Ok(n)) => {
                self.written += n;
                Next::Step
            }
            Poll::Ready(Err(_)) => Next::End,
            Poll::Pending => Next::Wait,
        }
    }

    /// Says the next line of the client. If there is none yet, flushes what was written.
    fn read(&mut self, room: &mut Room, cx: &mut Context<'_>) -> Next
        requires { S.can_poll self.old.frames }
        ensures again { S.can_poll self.new.frames }
        ensures line { (self.new.written ≡ self.old.written) × (self.new.line ≡ self.old.line) × (self.new.seat ≡ self.old.seat) }
        ensures room { result ≡ Next.Wait → room.new ≡ room.old }
        ensures acted { (act : Act) × Acts (λ b. b.items) S.run W.writes (self.old, room.old) act (self.new, room.new) }
        ensures context { Keeps cx.old cx.new }
    {
        match self.frames.poll_next(cx) {
            Poll::Ready(Some(Ok(text))) => self.say(room, text.as_slice()),
            Poll::Ready(Some(Err(FrameError::TooLong(_)))) => Next::EndTooLong,
            Poll::Ready(_) => Next::End,
            Poll::Pending => match self.writer.poll_flush(cx) {
                Poll::Ready(Err(_)) => Next::End,
                _ => Next::Wait,
            },
        }
    }

    /// Tells a line to the others. If memory is refused, nobody is told, and the session ends.
    fn say(&self, room: &mut Room, text: &[u8]) -> Next
        ensures said { result ≡ Next.Step → Said self.now.seat (framed self.now.name text.now) room.old room.new }
        ensures goes_on { result ≡ Next.Wait → ⊥ }
        ensures lost { result ≡ Next.Step ⊎ (room.new ≡ room.old) }
    {
        match frame(self.alloc, self.name.as_slice(), b": ", text) {
            Ok(line) => {
                room.say(self.seat, &line);
                Next::Step
            }
            Err(_) => Next::End,
        }
    }

    /// Tells the client that its line was too long, if that can be written at once.
    pub fn warn(&mut self, cx: &mut Context<'_>)
        ensures { Keeps cx.old cx.new }
    {
        let _ = self.writer.poll_write(cx, b"the line is too long\n");
        let _ = self.writer.poll_flush(cx);
    }
}

// Returns what is behind the first bytes of a line.
fn rest_of(line: &[u8], written: usize) -> &[u8]
    requires { written ≤ length line.now }
    ensures { result.now ≡ drop written line.now }
{
    &line[written..]
}
