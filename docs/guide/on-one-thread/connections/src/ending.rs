//! The end of a connection.
ghost use Rattle.std.specs.Prelude.{◌≡◌, ◌≤◌, drop, length};
ghost use Rattle.futures_lite.specs.Contexts.{Keeps};

use futures_lite::io::{AsyncBufRead, AsyncWrite};
use futures_lite::{Context, Poll};

/// How many steps an end makes before another connection has its turn.
const STEPS: u32 = 64;

/// What a step has done.
#[derive(Clone, Copy, PartialEq, Eq)]
enum Step {
    /// Something; there may be more to do.
    Done,
    /// Nothing, until the socket is ready.
    Waits,
    /// The connection has ended.
    Ended,
}

/// A connection that ends. Its last bytes are written, the side that is written is closed, and what the client still
/// sends is dropped up to its end.
///
/// A socket that is closed with unread bytes resets its connection, and then the client may lose the last replies.
#[derive(Drop)]
pub struct Ending<R, W> {
    reader: R,
    writer: W,
    out: Vec<u8>,
    // How many of these were written.
    written: usize,
    is_closed: bool,
    ghost within: { written ≤ length out.items },
}

impl<R: AsyncBufRead, W: AsyncWrite> Ending<R, W> {
    ghost use Rattle.connections.specs.Endings.{WritesLast};

    /// Returns the end of a connection, whose last bytes are `out`.
    pub fn new(reader: R, writer: W, out: Vec<u8>) -> Ending<R, W>
        ensures parts { (result.reader ≡ reader) × (result.writer ≡ writer) × (result.out ≡ out) }
        ensures fresh { result.written ≡ 0 }
    {
        Ending {
            reader,
            writer,
            out,
            written: 0,
            is_closed: false,
        }
    }

    /// Goes on, and returns `Ready` once both sides have ended, or the connection failed. Exactly the last bytes are
    /// written, in order.
    pub fn poll_ended(&mut self, cx: &mut Context<'_>) -> Poll<()>
        ensures writes { WritesLast W.writes self.old self.new }
        ensures context { Keeps cx.old cx.new }
    {
        for _ in 0..STEPS {
            match self.step(cx) {
                Step::Done => {}
                Step::Waits => return Poll::Pending,
                Step::Ended => return Poll::Ready(()),
            }
        }
        cx.yield_now()
    }

    fn step(&mut self, cx: &mut Context<'_>) -> Step
        ensures writes { WritesLast W.writes self.old self.new }
        ensures context { Keeps cx.old cx.new }
    {
        if self.written < self.out.len() {
            return self.write(cx);
        }
        if !self.is_closed {
            return self.close(cx);
        }
        self.drop_some(cx)
    }

    /// Writes some of the last bytes.
    fn write(&mut self, cx: &mut Context<'_>) -> Step
        ensures writes { WritesLast W.writes self.old self.new }
        ensures context { Keeps cx.old cx.new }
    {
        match self.writer.poll_write(cx, rest_of(&self.out, self.written)) {
            Poll::Ready(Ok(0)) => Step::Ended,
            Poll::Ready(Ok(n)) => {
                self.written += n;
                Step::Done
            }
            Poll::Ready(Err(_)) => Step::Ended,
            Poll::Pending => Step::Waits,
        }
    }

    /// Tells the client that no reply follows.
    fn close(&mut self, cx: &mut Context<'_>) -> Step
        ensures writes { WritesLast W.writes self.old self.new }
        ensures context { Keeps cx.old cx.new }
    {
        match self.writer.poll_close(cx) {
            Poll::Ready(Ok(())) => {
                self.is_closed = true;
                Step::Done
            }
            Poll::Ready(Err(_)) => Step::Ended,
            Poll::Pending => Step::Waits,
        }
    }

    /// Drops what the client has sent.
    fn drop_some(&mut self, cx: &mut Context<'_>) -> Step
        ensures writes { WritesLast W.writes self.old self.new }
        ensures context { Keeps cx.old cx.new }
    {
        let count = match self.reader.poll_fill_buf(cx) {
            Poll::Ready(Ok(bytes)) => bytes.len(),
            Poll::Ready(Err(_)) => return Step::Ended,
            Poll::Pending => return Step::Waits,
        };
        if count == 0 {
            return Step::Ended;
        }
        self.reader.consume(count);
        Step::Done
    }
}

/// Returns the bytes from a place on.
fn rest_of(bytes: &[u8], from: usize) -> &[u8]
    requires { from ≤ length bytes.now }
    ensures { result.now ≡ drop from bytes.now }
{
    &bytes[from..]
}
