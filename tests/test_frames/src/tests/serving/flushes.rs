//! When a server flushes.
ghost use Rattle.futures_lite.specs.Own.{Anything, anything_writes};

use super::{Twice, had_memory};
use framed::{FramedRead, ServeError, serve};
use futures_lite::future::BlockOn;
use futures_lite::io::{AsyncWrite, BufReader, WriteSpec};
use futures_lite::{Context, Poll};
use lite_mock::Marks;
use std::alloc::{AllocGlobal, Global};
use std::io::{self, ErrorKind};
use std::random::RandomSource;
use std::sync::Wait;
use std::test::Fail;
use tokio_util::codec::{LinesCodec, LinesCodecError};

/// Keeps what is written, with a `|` for each flush.
#[derive(Drop)]
struct Flushes {
    kept: Vec<u8>,
}

impl WriteSpec for Flushes {
    ghost writes = { Anything };

    ghost write_laws = { anything_writes };
}

impl AsyncWrite for Flushes {
    fn poll_write(&mut self, _cx: &mut Context<'_>, buf: &[u8]) -> Poll<io::Result<usize>> {
        match self.kept.extend_from_slice(buf) {
            Ok(()) => Poll::Ready(Ok(buf.len())),
            Err(e) => Poll::Ready(Err(io::Error::from(e))),
        }
    }

    fn poll_flush(&mut self, _cx: &mut Context<'_>) -> Poll<io::Result<()>> {
        match self.kept.push(b'|') {
            Ok(()) => Poll::Ready(Ok(())),
            Err(e) => Poll::Ready(Err(io::Error::from(e))),
        }
    }

    fn poll_close(&mut self, _cx: &mut Context<'_>) -> Poll<io::Result<()>> {
        Poll::Ready(Ok(()))
    }
}

/// Serves what these marks give; returns what was written and flushed.
fn flushed<R: Wait + RandomSource + AllocGlobal>(
    rt: &R,
    marks: Marks,
) -> Result<
    (
        Result<(), ServeError<LinesCodecError, LinesCodecError>>,
        Vec<u8>,
    ),
    Fail,
> {
    let mut on = BlockOn::new(rt)?;
    let Ok(mut reader) = BufReader::new(rt.alloc(), marks) else {
        return Err(Fail::from("no memory for a buffer"));
    };
    let mut replies = Flushes {
        kept: Vec::new(rt.alloc()),
    };
    let mut service = Twice { asked: 0 };
    let mut requests = FramedRead::new(rt.alloc(), &mut reader, LinesCodec::new());
    let mut encoder = LinesCodec::new();
    let result = serve(
        &mut on,
        rt,
        &mut requests,
        &mut replies,
        &mut encoder,
        &mut service,
    );
    Ok((result, replies.kept))
}

// Before each read, and at the end. Not between two lines of one read.
#[test]
fn before_each_read(rt: HostRuntime) -> Result<(), Fail> {
    let mut marks = Marks::new(rt.alloc());
    marks.chunk(b"one\n")?;
    marks.pending()?;
    marks.chunk(b"two\n3\nfo")?;
    let (result, kept) = flushed(&rt, marks)?;
    had_memory(&result)?;
    assert!(rt; result.is_ok());
    assert_eq!(rt;
        kept.as_slice(),
        b"|one\none\n|two\ntwo\n3\n3\n|fo\nfo\n|".as_slice()
    );
    Ok(())
}

#[test]
fn behind_an_error_too(rt: HostRuntime) -> Result<(), Fail> {
    let mut marks = Marks::new(rt.alloc());
    marks.chunk(b"one\nlack\ntwo\n")?;
    let (result, kept) = flushed(&rt, marks)?;
    if kept.as_slice() != b"|one\none\n|".as_slice() {
        had_memory(&result)?;
    }
    assert!(rt; matches!(result, Err(ServeError::Memory)));
    assert_eq!(rt; kept.as_slice(), b"|one\none\n|".as_slice());

    let mut marks = Marks::new(rt.alloc());
    marks.chunk(b"one\n")?;
    marks.fault(ErrorKind::BrokenPipe)?;
    let (result, kept) = flushed(&rt, marks)?;
    had_memory(&result)?;
    assert!(rt;
        matches!(result, Err(ServeError::Input(LinesCodecError::Io(e))) if e.kind() == ErrorKind::BrokenPipe)
    );
    assert_eq!(rt; kept.as_slice(), b"|one\none\n|too long\n|".as_slice());
    Ok(())
}
