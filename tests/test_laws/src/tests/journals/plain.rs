//! The plain halves of a stream.
ghost use Rattle.std.specs.Prelude.{⊤};

use futures::task::{Doorbell, Solo};
use futures_lite::io::{self, AsyncWrite, WriteSpec};
use futures_lite::{Context, Poll};
use std::alloc::AllocError;
use std::sync::atomic::AtomicU64;
use std::sync::atomic::Ordering::SeqCst;
use std::test::Fail;
use test_support::is_done;

/// A writer that counts its flushes and its closes where the test sees them.
#[derive(Drop)]
struct Counting<'a> {
    flushes: &'a AtomicU64,
    closes: &'a AtomicU64,
}

impl WriteSpec for Counting<'_> {
    ghost writes = { λ _ _ _. ⊤ };

    ghost write_laws = { record { rests = λ x. tt; follows = λ x y z l m h k. tt } };
}

impl AsyncWrite for Counting<'_> {
    fn poll_write(&mut self, _cx: &mut Context<'_>, buf: &[u8]) -> Poll<io::Result<usize>> {
        Poll::Ready(Ok(buf.len()))
    }

    fn poll_flush(&mut self, _cx: &mut Context<'_>) -> Poll<io::Result<()>> {
        self.flushes.fetch_add(1, SeqCst);
        Poll::Ready(Ok(()))
    }

    fn poll_close(&mut self, _cx: &mut Context<'_>) -> Poll<io::Result<()>> {
        self.closes.fetch_add(1, SeqCst);
        Poll::Ready(Ok(()))
    }
}

#[test]
fn a_flush_of_a_half_is_a_flush_and_a_close_a_close(rt: HostRuntime) -> Result<(), Fail> {
    let (flushes, closes) = (AtomicU64::new(0), AtomicU64::new(0));
    let stream = Counting {
        flushes: &flushes,
        closes: &closes,
    };
    let Ok((_reader, mut writer)) = io::split(rt, stream) else {
        return Err(AllocError.into());
    };
    let solo = Solo::new(&rt, Doorbell::spinning())?;
    let mut cx = solo.begin();
    let was_flushed = writer.poll_flush(&mut cx);
    let after_flush = (flushes.load(SeqCst), closes.load(SeqCst));
    let was_closed = writer.poll_close(&mut cx);
    let after_close = (flushes.load(SeqCst), closes.load(SeqCst));
    cx.cancel();
    assert!(rt; is_done(was_flushed)?);
    assert_eq!(rt; after_flush, (1, 0));
    assert!(rt; is_done(was_closed)?);
    assert_eq!(rt; after_close, (1, 1));
    Ok(())
}
