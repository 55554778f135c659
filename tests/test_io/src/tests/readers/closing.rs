//! What writes and flushes closes no writer.
ghost use Rattle.std.specs.Prelude.{⊤, []};

use futures_lite::future::BlockOn;
use futures_lite::io::{self, AsyncWrite, ReadSpec, WriteSpec, wait_flush, wait_write_all};
use futures_lite::laws::{SteadyWrite, write_both};
use futures_lite::{Context, Poll};
use std::alloc::Global;
use std::io::ErrorKind;
use std::test::Fail;

/// A writer of which each call fails once it was closed.
#[derive(Drop)]
struct Closable {
    taken: Vec<u8>,
    flushes: usize,
    closed: bool,
}

impl Closable {
    fn new(alloc: Global) -> Closable {
        Closable {
            taken: Vec::new(alloc),
            flushes: 0,
            closed: false,
        }
    }

    /// Refuses a call once it is closed.
    fn check(&self) -> io::Result<()> {
        if self.closed {
            return Err(ErrorKind::BrokenPipe.into());
        }
        Ok(())
    }
}

impl ReadSpec for Closable {
    ghost reads = { λ _ _ _. ⊤ };

    ghost read_laws = { record { rests = λ x. tt; follows = λ x y z l m h k. tt } };
}

impl WriteSpec for Closable {
    ghost writes = { λ _ _ _. ⊤ };

    ghost write_laws = { record { rests = λ x. tt; follows = λ x y z l m h k. tt } };
}

impl AsyncWrite for Closable {
    fn poll_write(&mut self, _cx: &mut Context<'_>, buf: &[u8]) -> Poll<io::Result<usize>> {
        if let Err(e) = self.check() {
            return Poll::Ready(Err(e));
        }
        match self.taken.extend_from_slice(buf) {
            Ok(()) => Poll::Ready(Ok(buf.len())),
            Err(_) => Poll::Ready(Err(ErrorKind::OutOfMemory.into())),
        }
    }

    fn poll_flush(&mut self, _cx: &mut Context<'_>) -> Poll<io::Result<()>> {
        self.flushes = self.flushes.wrapping_add(1);
        Poll::Ready(self.check())
    }

    fn poll_close(&mut self, _cx: &mut Context<'_>) -> Poll<io::Result<()>> {
        let checked = self.check();
        self.closed = true;
        Poll::Ready(checked)
    }
}

// Nothing is said of the bytes.
impl SteadyWrite for Closable {
    ghost alike = { λ _ _. ⊤ };

    ghost below = { λ _. [] };

    ghost steady = { record { steady = λ x y x' y' l m h i j k n o p q. (λ i. [], tt) } };
}

#[test]
fn a_write_and_a_flush_leave_the_writer_open(rt: HostRuntime) -> Result<(), Fail> {
    let mut on = BlockOn::new(&rt)?;
    let mut writer = Closable::new(rt.alloc());
    wait_write_all(&mut on, &rt, &mut writer, b"ab")??;
    assert!(rt; !writer.closed);
    assert_eq!(rt; writer.flushes, 0);
    wait_flush(&mut on, &rt, &mut writer)??;
    assert!(rt; !writer.closed);
    assert_eq!(rt; writer.flushes, 1);
    wait_write_all(&mut on, &rt, &mut writer, b"c")??;
    assert_eq!(rt; writer.taken.as_slice(), b"abc".as_slice());
    assert!(rt; !writer.closed);
    Ok(())
}

#[test]
fn two_writers_are_left_open(rt: HostRuntime) -> Result<(), Fail> {
    let mut first = Closable::new(rt.alloc());
    let mut second = Closable::new(rt.alloc());
    for _ in 0..2 {
        let values = write_both(&rt, &mut first, &mut second, b"ab")?;
        values.0?;
        values.1?;
    }
    for writer in [&first, &second] {
        assert_eq!(rt; writer.taken.as_slice(), b"abab".as_slice());
        assert_eq!(rt; writer.flushes, 2);
        assert!(rt; !writer.closed);
    }
    Ok(())
}
