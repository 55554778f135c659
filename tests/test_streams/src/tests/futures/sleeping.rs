//! What a wait costs the processor, after many calls that did not wait.
ghost use Rattle.futures_lite.specs.Own.{AnyValue, Anything, anything_future, anything_reads};

use super::bell::Bell;
use futures_lite::future::{self, BlockOn, Future};
use futures_lite::io::{self as lite, AsyncRead, ReadSpec};
use futures_lite::{Context, Poll, StreamExt, stream};
use std::io::{self, Read};
use std::sync::Wait;
use std::test::Fail;
use std::thread;
use std::time::{Clock, CpuClock, Duration};

/// How many calls are ready before the one that waits.
const READY: u32 = 100_000;

/// How many milliseconds that one waits.
const WAIT: u64 = 400;

/// How many of them it may cost the processor.
const MOST: u64 = 100;

fn ring_later<R: Clock + Wait>(rt: &R, bell: &Bell) {
    thread::sleep(rt, Duration::from_millis(WAIT));
    bell.ring(rt);
}

#[test]
fn a_sleeper_of_futures_sleeps(rt: HostRuntime) -> Result<(), Fail> {
    let mut sleeper = BlockOn::new(&rt)?;
    for i in 0..READY {
        sleeper.block_on(&rt, future::ready(i))?;
    }
    let bell = Bell::new(rt.alloc())?;
    let future = bell.other()?;
    let (cost, ()) = thread::join(
        &rt,
        || -> io::Result<Duration> {
            let start = rt.thread_cpu_time()?;
            let _ = sleeper.block_on(&rt, future)?;
            Ok(rt.thread_cpu_time()?.saturating_sub(start))
        },
        || ring_later(&rt, &bell),
    );
    assert!(rt; cost? < Duration::from_millis(MOST));
    Ok(())
}

/// Counts the polls of a future.
#[derive(Drop)]
struct Polled<F> {
    future: F,
    polls: u32,
}

impl<F: Future> Future for Polled<F> {
    type Output = F::Output;

    ghost run = { AnyValue };

    ghost laws = { anything_future };

    fn poll(&mut self, cx: &mut Context<'_>) -> Poll<F::Output> {
        self.polls += 1;
        self.future.poll(cx)
    }
}

#[test]
fn each_wake_leads_to_one_poll(rt: HostRuntime) -> Result<(), Fail> {
    let mut on = BlockOn::new(&rt)?;
    for way in 0..3u8 {
        let bell = Bell::new(rt.alloc())?;
        let mut future = Polled {
            future: bell.other()?,
            polls: 0,
        };
        let (waited, ()) = thread::join(
            &rt,
            || -> io::Result<()> {
                let _rung = match way {
                    0 => on.block_on(&rt, &mut future)?,
                    1 => on.wait_for(&rt, &mut future)?,
                    _ => on.waits().wait_for(&rt, &mut future),
                };
                Ok(())
            },
            || ring_later(&rt, &bell),
        );
        waited?;
        // The first poll, and one for the wake.
        assert_eq!(rt; future.polls, 2);
    }
    Ok(())
}

#[test]
fn a_sleeper_of_waits_sleeps(rt: HostRuntime) -> Result<(), Fail> {
    let mut sleeper = BlockOn::new(&rt)?;
    let bell = Bell::new(rt.alloc())?;
    let mut future = bell.other()?;
    let (cost, ()) = thread::join(
        &rt,
        || -> io::Result<Duration> {
            let mut waits = sleeper.waits();
            for i in 0..READY {
                waits.wait_for(&rt, &mut future::ready(i));
            }
            let start = rt.thread_cpu_time()?;
            let _ = waits.wait_for(&rt, &mut future);
            Ok(rt.thread_cpu_time()?.saturating_sub(start))
        },
        || ring_later(&rt, &bell),
    );
    assert!(rt; cost? < Duration::from_millis(MOST));
    Ok(())
}

#[test]
fn a_sleeper_of_streams_sleeps(rt: HostRuntime) -> Result<(), Fail> {
    let bell = Bell::new(rt.alloc())?;
    let ready = stream::iter(0..READY).map(|_i| Ok(()));
    let mut items = stream::block_on(&rt, ready.chain(stream::once_future(bell.other()?)));
    for _ in 0..READY {
        items.next()?;
    }
    let (cost, ()) = thread::join(
        &rt,
        || -> io::Result<Duration> {
            let start = rt.thread_cpu_time()?;
            let _ = items.next()?;
            Ok(rt.thread_cpu_time()?.saturating_sub(start))
        },
        || ring_later(&rt, &bell),
    );
    assert!(rt; cost? < Duration::from_millis(MOST));
    Ok(())
}

/// A reader of so many bytes, and then of none until the bell was rung.
#[derive(Drop)]
pub(super) struct UntilBell {
    pub(super) left: u32,
    pub(super) bell: Bell,
}

impl ReadSpec for UntilBell {
    ghost reads = { Anything };

    ghost read_laws = { anything_reads };
}

impl AsyncRead for UntilBell {
    fn poll_read(&mut self, cx: &mut Context<'_>, buf: &mut [u8]) -> Poll<io::Result<usize>> {
        if self.left > 0 {
            self.left -= 1;
            return Poll::Ready(Ok(buf.len().min(1)));
        }
        match self.bell.poll(cx) {
            Poll::Ready(_) => Poll::Ready(Ok(0)),
            Poll::Pending => Poll::Pending,
        }
    }
}

#[test]
fn a_sleeper_of_readers_sleeps(rt: HostRuntime) -> Result<(), Fail> {
    let bell = Bell::new(rt.alloc())?;
    let reader = UntilBell {
        left: READY,
        bell: bell.other()?,
    };
    let mut bytes = lite::BlockOn::new(&rt, reader);
    let mut room = [0u8; 1];
    for _ in 0..READY {
        bytes.read(&mut room)?;
    }
    let (cost, ()) = thread::join(
        &rt,
        || -> io::Result<Duration> {
            let start = rt.thread_cpu_time()?;
            bytes.read(&mut room)?;
            Ok(rt.thread_cpu_time()?.saturating_sub(start))
        },
        || ring_later(&rt, &bell),
    );
    assert!(rt; cost? < Duration::from_millis(MOST));
    Ok(())
}
