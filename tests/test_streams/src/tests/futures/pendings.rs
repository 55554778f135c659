//! Calls that wait for what another thread wakes again and again.
use super::bell::Bell;
use super::sleeping::UntilBell;
use futures_lite::future::{self, Future};
use futures_lite::io::{self as lite, AsyncAsSync, AsyncRead};
use futures_lite::{Context, Poll, stream};
use std::io::{self, ErrorKind, Read};
use std::sync::atomic::AtomicU64;
use std::sync::atomic::Ordering::SeqCst;
use std::test::Fail;
use std::thread;

/// How often each is pending, and woken by the other thread.
const PENDINGS: [u32; 3] = [1, 10, 100];

#[test]
fn block_on_goes_on_at_each_wake(rt: HostRuntime) -> Result<(), Fail> {
    for pendings in &PENDINGS {
        let bell = Bell::after(rt.alloc(), *pendings)?;
        let mut waiting = bell.other()?;
        let polls = AtomicU64::new(0);
        let future = future::poll_fn(|cx: &mut Context<'_>| {
            polls.fetch_add(1, SeqCst);
            waiting.poll(cx)
        });
        let (ended, ()) = thread::join(
            &rt,
            || future::block_on(&rt, future),
            || bell.ring_when_waited_for(&rt),
        );
        assert_eq!(rt; ended?, Ok(()));
        assert!(rt; polls.load(SeqCst) > *pendings as u64);
    }
    Ok(())
}

#[test]
fn a_blocking_stream_goes_on_at_each_wake(rt: HostRuntime) -> Result<(), Fail> {
    for pendings in &PENDINGS {
        let bell = Bell::after(rt.alloc(), *pendings)?;
        let mut items = stream::block_on(&rt, stream::once_future(bell.other()?));
        let (item, ()) = thread::join(&rt, || items.next(), || bell.ring_when_waited_for(&rt));
        assert_eq!(rt; item?, Some(Ok(())));
        assert_eq!(rt; items.next()?, None);
    }
    Ok(())
}

#[test]
fn a_blocking_reader_goes_on_at_each_wake(rt: HostRuntime) -> Result<(), Fail> {
    for pendings in &PENDINGS {
        let bell = Bell::after(rt.alloc(), *pendings)?;
        let reader = UntilBell {
            left: 1,
            bell: bell.other()?,
        };
        let mut bytes = lite::BlockOn::new(&rt, reader);
        let mut room = [0u8; 1];
        assert_eq!(rt; bytes.read(&mut room)?, 1);
        let (read, ()) = thread::join(
            &rt,
            || bytes.read(&mut room),
            || bell.ring_when_waited_for(&rt),
        );
        assert_eq!(rt; read?, 0);
    }
    Ok(())
}

/// A read by std's trait: where it would block, the poll is pending.
fn read_as_std<R: AsyncRead>(reader: &mut R, cx: &mut Context<'_>) -> Poll<io::Result<usize>> {
    let mut handle = AsyncAsSync::new(cx, reader);
    match handle.read(&mut [0u8; 1]) {
        Err(e) if e.kind() == ErrorKind::WouldBlock => Poll::Pending,
        read => Poll::Ready(read),
    }
}

#[test]
fn a_read_that_would_block_goes_on_at_each_wake(rt: HostRuntime) -> Result<(), Fail> {
    for pendings in &PENDINGS {
        let bell = Bell::after(rt.alloc(), *pendings)?;
        let mut reader = UntilBell {
            left: 1,
            bell: bell.other()?,
        };
        let first = future::poll_fn(|cx: &mut Context<'_>| read_as_std(&mut reader, cx));
        assert_eq!(rt; future::block_on(&rt, first)??, 1);
        let second = future::poll_fn(|cx: &mut Context<'_>| read_as_std(&mut reader, cx));
        let (read, ()) = thread::join(
            &rt,
            || future::block_on(&rt, second),
            || bell.ring_when_waited_for(&rt),
        );
        assert_eq!(rt; read??, 0);
    }
    Ok(())
}
