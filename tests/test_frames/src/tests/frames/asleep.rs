//! Frames and what sends them wake no task by themselves while the reader or writer is pending.
ghost use Rattle.futures_lite.specs.Own.{Anything, anything_reads, anything_writes};

use super::CODEC;
use bytes::BytesMut;
use framed::{CutError, FramedRead, FramesError, send};
use futures::task::{Doorbell, Solo, Source};
use futures_lite::io::{AsyncRead, AsyncReadExt, AsyncWrite, BufReader, ReadSpec, WriteSpec};
use futures_lite::{Context, Future, Poll, StreamExt, future};
use serving::{Responder, Serving};
use std::alloc::{AllocError, AllocGlobal};
use std::io;
use std::random::RandomSource;
use std::test::Fail;
use test_support::is_woken;

/// Is pending at each call, and wakes nothing.
#[derive(Drop)]
struct Still;

impl ReadSpec for Still {
    ghost reads = { Anything };

    ghost read_laws = { anything_reads };
}

impl WriteSpec for Still {
    ghost writes = { Anything };

    ghost write_laws = { anything_writes };
}

impl AsyncRead for Still {
    fn poll_read(&mut self, _cx: &mut Context<'_>, _buf: &mut [u8]) -> Poll<io::Result<usize>> {
        Poll::Pending
    }
}

impl AsyncWrite for Still {
    fn poll_write(&mut self, _cx: &mut Context<'_>, _buf: &[u8]) -> Poll<io::Result<usize>> {
        Poll::Pending
    }

    fn poll_flush(&mut self, _cx: &mut Context<'_>) -> Poll<io::Result<()>> {
        Poll::Pending
    }

    fn poll_close(&mut self, _cx: &mut Context<'_>) -> Poll<io::Result<()>> {
        Poll::Pending
    }
}

/// Replies nothing.
#[derive(Drop)]
struct Silent;

impl Responder for Silent {
    type Error = CutError;

    ghost answers = { λ x request out y. ⊤ };

    ghost refuses = { λ x e words y. ⊤ };

    fn answer(&mut self, _: &[u8], _: &mut Vec<u8>) -> Result<bool, AllocError> {
        Ok(true)
    }

    fn refuse(&mut self, _: &FramesError<CutError>, _: &mut Vec<u8>) -> Result<(), AllocError> {
        Ok(())
    }
}

/// Whether the next poll of the future is pending, and wakes nothing.
fn waits_asleep<R, F>(rt: &R, mut future: F) -> Result<bool, Fail>
where
    R: RandomSource + AllocGlobal,
    F: Future<Output: Drop> + Drop,
    requires { F.can_poll future }
{
    let solo = Solo::new(rt, Doorbell::spinning())?;
    let source = Source::new();
    let mut slot = None;
    let mut cx = solo.begin();
    let answer = future.poll(&mut cx);
    let _: Poll<()> = cx.register(&source, &mut slot);
    cx.park();
    Ok(answer.is_pending() && !is_woken(&solo))
}

#[test]
fn a_waking_future_is_seen(rt: HostRuntime) -> Result<(), Fail> {
    let waking = future::poll_fn(|cx: &mut Context<'_>| cx.yield_now::<()>());
    assert!(rt; !waits_asleep(&rt, waking)?);
    Ok(())
}

#[test]
fn a_pending_stream_of_frames_wakes_nothing(rt: HostRuntime) -> Result<(), Fail> {
    let Ok(reader) = BufReader::with_capacity(rt.alloc(), 4, Still.with_budget(9)) else {
        return Err(AllocError.into());
    };
    let mut frames = FramedRead::new(rt.alloc(), reader, CODEC);
    assert!(rt; waits_asleep(&rt, frames.next())?);
    Ok(())
}

#[test]
fn a_pending_send_wakes_nothing(rt: HostRuntime) -> Result<(), Fail> {
    let mut codec = CODEC;
    let mut out = BytesMut::with_capacity(rt.alloc(), 16)?;
    let mut writer = Still;
    let sending = send(&mut writer, &mut codec, "hi", &mut out);
    assert!(rt; waits_asleep(&rt, sending)?);
    Ok(())
}

#[test]
fn a_pending_server_wakes_nothing(rt: HostRuntime) -> Result<(), Fail> {
    let Ok(reader) = BufReader::with_capacity(rt.alloc(), 4, Still.with_budget(9)) else {
        return Err(AllocError.into());
    };
    assert!(rt; waits_asleep(&rt, Serving::new(rt.alloc(), reader, CODEC, Still, Silent))?);
    Ok(())
}
