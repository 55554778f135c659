use super::bell::Bell;
use super::counting::Counting;
use futures::task::{Doorbell, Solo, Source};
use futures_lite::future::{self, BlockOn, Future, FutureExt};
use futures_lite::laws::block_on_both;
use futures_lite::{AsyncReadExt, Context, Poll, StreamExt, io as lite, stream};
use std::alloc::{Alloc, AllocError, AllocGlobal, Global};
use std::cell::Cell;
use std::io::{self, ErrorKind};
use std::random::RandomSource;
use std::sync::Wait;
use std::sync::atomic::AtomicU64;
use std::sync::atomic::Ordering::SeqCst;
use std::test::Fail;
use std::thread;
use test_support::{Refusing, is_woken};

/// Whether a poll of the future is pending, and its task is woken once the bell is rung and not before.
fn is_woken_by<R, F>(rt: &R, mut future: F, bell: &Bell) -> Result<bool, Fail>
where
    R: Wait + RandomSource + AllocGlobal,
    F: Future + Drop,
    F::Output: Drop,
    requires { F.can_poll future }
{
    let solo = Solo::new(rt, Doorbell::spinning())?;
    let source = Source::new();
    let mut slot = None;
    let mut cx = solo.begin();
    let is_pending = future.poll(&mut cx).is_pending();
    let _: Poll<()> = cx.register(&source, &mut slot);
    cx.park();
    let was_woken = is_woken(&solo);
    bell.ring(rt);
    Ok(is_pending && !was_woken && is_woken(&solo))
}

fn two_bells(alloc: Global) -> Result<[Bell; 2], AllocError> {
    Ok([Bell::new(alloc)?, Bell::new(alloc)?])
}

#[test]
fn each_of_two_sources_wakes_the_task(rt: HostRuntime) -> Result<(), Fail> {
    for rung in 0..2usize {
        let bells = two_bells(rt.alloc())?;
        let zip = future::zip(bells[0].other()?, bells[1].other()?);
        assert!(rt; is_woken_by(&rt, zip, &bells[rung])?);
        let bells = two_bells(rt.alloc())?;
        let try_zip = future::try_zip(bells[0].other()?, bells[1].other()?);
        assert!(rt; is_woken_by(&rt, try_zip, &bells[rung])?);
        let bells = two_bells(rt.alloc())?;
        let or = bells[0].other()?.or(bells[1].other()?);
        assert!(rt; is_woken_by(&rt, or, &bells[rung])?);
        let bells = two_bells(rt.alloc())?;
        let race = bells[0]
            .other()?
            .race(bells[1].other()?, Counting { next: 1 });
        assert!(rt; is_woken_by(&rt, race, &bells[rung])?);
    }
    Ok(())
}

#[test]
fn block_on_ends_at_a_wake_of_its_own_poll(rt: HostRuntime) -> Result<(), Fail> {
    future::block_on(&rt, future::yield_now())?;
    assert_eq!(rt; future::block_on(&rt, future::ready(7u8))?, 7);
    Ok(())
}

#[test]
fn wait_for_leaves_the_future_with_its_caller(rt: HostRuntime) -> Result<(), Fail> {
    let mut read = Vec::new(rt.alloc());
    let mut text = b"ab".as_slice();
    let mut reading = text.read_to_end(&mut read);
    assert_eq!(rt; future::wait_for(&rt, &mut reading)??, 2);
    assert_eq!(rt; read.as_slice(), b"ab".as_slice());
    let mut yielding = future::yield_now();
    future::wait_for(&rt, &mut yielding)?;
    let refused = future::wait_for(&Refusing { rt }, &mut future::ready(7u8));
    assert!(rt; refused.is_err());
    Ok(())
}

#[test]
fn one_sleeper_waits_for_many_futures(rt: HostRuntime) -> Result<(), Fail> {
    let mut sleeper = BlockOn::new(&rt)?;
    for i in 0..3u8 {
        assert_eq!(rt; sleeper.block_on(&rt, future::ready(i))?, i);
        sleeper.block_on(&rt, future::yield_now())?;
        let mut buffer_of = future::ready(i);
        assert_eq!(rt; sleeper.wait_for(&rt, &mut buffer_of)?, i);
    }
    assert!(rt; BlockOn::new(&Refusing { rt }).is_err());
    Ok(())
}

#[test]
fn waits_follow_one_another(rt: HostRuntime) -> Result<(), Fail> {
    let mut sleeper = BlockOn::new(&rt)?;
    for i in 0..3u8 {
        let mut waits = sleeper.waits();
        assert_eq!(rt; waits.wait_for(&rt, &mut future::ready(i)), i);
        assert_eq!(rt; waits.wait_for(&rt, &mut future::ready(i)), i);
        waits.wait_for(&rt, &mut future::yield_now());
        waits.wait_for(&rt, &mut future::yield_now());
        drop(waits);
        drop(sleeper.waits());
        assert_eq!(rt; sleeper.block_on(&rt, future::ready(i))?, i);
    }
    Ok(())
}

#[test]
fn waits_end_at_wakes_of_another_thread(rt: HostRuntime) -> Result<(), Fail> {
    let mut sleeper = BlockOn::new(&rt)?;
    let (first_bell, last_bell) = (Bell::new(rt.alloc())?, Bell::new(rt.alloc())?);
    let (mut first, mut last) = (first_bell.other()?, last_bell.other()?);
    let ended = thread::join(
        &rt,
        || {
            let mut waits = sleeper.waits();
            let first = waits.wait_for(&rt, &mut first);
            waits.wait_for(&rt, &mut future::ready(7u8));
            (first, waits.wait_for(&rt, &mut last))
        },
        || {
            first_bell.ring_when_waited_for(&rt);
            last_bell.ring_when_waited_for(&rt);
        },
    );
    assert_eq!(rt; ended.0, (Ok(()), Ok(())));
    Ok(())
}

#[test]
fn a_sleeper_ends_at_a_wake_of_another_thread(rt: HostRuntime) -> Result<(), Fail> {
    let mut sleeper = BlockOn::new(&rt)?;
    for _ in 0..2usize {
        let bell = Bell::new(rt.alloc())?;
        let future = bell.other()?;
        let ended = thread::join(
            &rt,
            || sleeper.block_on(&rt, future),
            || bell.ring_when_waited_for(&rt),
        );
        assert_eq!(rt; ended.0?, Ok(()));
    }
    Ok(())
}

#[test]
fn block_on_ends_at_a_wake_of_another_thread(rt: HostRuntime) -> Result<(), Fail> {
    let bell = Bell::new(rt.alloc())?;
    let future = bell.other()?;
    let ended = thread::join(
        &rt,
        || future::block_on(&rt, future),
        || bell.ring_when_waited_for(&rt),
    );
    assert_eq!(rt; ended.0?, Ok(()));
    Ok(())
}

/// A runtime whose random bytes fail as long as there are failures left, each with this kind.
#[derive(Drop)]
struct Failing<R> {
    rt: R,
    failures: Cell<u8>,
    kind: ErrorKind,
}

impl<R: Wait> Wait for Failing<R> {}

impl<R: RandomSource> RandomSource for Failing<R> {
    fn fill_bytes(&self, buf: &mut [u8]) -> io::Result<()> {
        let left = self.failures.get();
        if left > 0 {
            self.failures.set(left - 1);
            return Err(io::Error::from(self.kind));
        }
        self.rt.fill_bytes(buf)
    }
}

impl<R: Alloc> Alloc for Failing<R> {
    type A = R::A;

    fn alloc(&self) -> R::A {
        self.rt.alloc()
    }
}

#[test]
fn block_on_asks_again_for_random_bytes(rt: HostRuntime) -> Result<(), Fail> {
    let kinds = [
        ErrorKind::Other,
        ErrorKind::Interrupted,
        ErrorKind::TimedOut,
        ErrorKind::WouldBlock,
    ];
    for kind in kinds {
        let failing = Failing {
            rt,
            failures: Cell::new(3),
            kind,
        };
        assert_eq!(rt; future::block_on(&failing, future::ready(7u8))?, 7);
        assert_eq!(rt; failing.failures.get(), 0);
    }
    Ok(())
}

#[test]
fn the_first_of_two_is_waited_for_before_the_second(rt: HostRuntime) -> Result<(), Fail> {
    let calls = AtomicU64::new(0);
    let count = |_cx: &mut Context<'_>| Poll::Ready(calls.fetch_add(1, SeqCst));
    let both = block_on_both(&rt, future::poll_fn(count), future::poll_fn(count))?;
    assert_eq!(rt; both, (0, 1));
    Ok(())
}

#[test]
fn a_refused_block_on_polls_nothing(rt: HostRuntime) -> Result<(), Fail> {
    let polls = AtomicU64::new(0);
    let future = future::poll_fn(|_cx: &mut Context<'_>| {
        polls.fetch_add(1, SeqCst);
        Poll::Ready(1u8)
    });
    let refused = future::block_on(&Refusing { rt }, future);
    assert_eq!(rt; refused, Err(AllocError));
    assert_eq!(rt; polls.load(SeqCst), 0);
    Ok(())
}

#[test]
fn a_refused_blocking_stream_polls_nothing(rt: HostRuntime) -> Result<(), Fail> {
    let refusing = Refusing { rt };
    let mut numbers = stream::iter(1u8..4);
    let refused = stream::block_on(refusing, &mut numbers).next();
    assert_eq!(rt; refused, Err(AllocError));
    assert_eq!(rt; future::block_on(&rt, numbers.next())?, Some(1));
    Ok(())
}

#[test]
fn a_refused_blocking_reader_polls_nothing(rt: HostRuntime) -> Result<(), Fail> {
    let refusing = Refusing { rt };
    let mut bytes = b"ab".as_slice();
    let refused = io::Read::read(&mut lite::BlockOn::new(refusing, &mut bytes), &mut [0u8; 1]);
    assert_eq!(rt; refused.map_err(|e| e.kind()), Err(ErrorKind::OutOfMemory));
    assert_eq!(rt; bytes, b"ab".as_slice());
    Ok(())
}
