//! A half that makes a list of calls lets the other half go on between them.
ghost use Rattle.std.specs.Prelude.{◌≡◌};

use super::pipe::Pipe;
use futures::task::{Doorbell, Solo};
use futures_lite::Poll;
use futures_lite::io::{
    Answer, AsyncWrite, CounterNames, Journal, JournalReadHalf, NewCounters, split_journalled,
};
use std::alloc::{Alloc, AllocGlobal};
use std::marker::Brand;
use std::process::Abort;
use std::random::RandomSource;
use std::sync::Wait;
use std::sync::atomic::AtomicU64;
use std::sync::atomic::Ordering::SeqCst;
use std::test::Fail;
use std::thread;
use std::thread::Threads;

// How many reads a list has, how many lists are driven, and how often the other half is polled, before the test fails.
const ROOMS: usize = 64;

const LISTS: u32 = 200;

const POLLS: u32 = 200_000;

/// A runtime that lets other threads go on when it is asked for memory.
#[derive(Clone, Drop)]
struct Yielding<R> {
    rt: R,
}

impl<R: Wait> Wait for Yielding<R> {}

impl<R: Alloc> Alloc for Yielding<R> {
    type A = R::A;

    fn alloc(&self) -> R::A {
        thread::yield_now();
        self.rt.alloc()
    }
}

/// How many of the answers are one byte that was read.
fn bytes_in(answers: &[Answer]) -> usize {
    answers
        .iter()
        .filter(|answer| matches!(answer, Answer::Read(bytes) if bytes.len() == 1))
        .count()
}

/// Drives lists of reads of one byte until one list reads two bytes. The pipe holds one, so the other was written in
/// between. `false`: no list did. `None`: memory was refused.
fn drives_past_a_write<R, B>(
    rt: &R,
    reader: &mut JournalReadHalf<Yielding<R>, Pipe, B>,
) -> Option<bool>
where
    R: Wait + RandomSource + AllocGlobal,
    B: CounterNames,
{
    let solo = Solo::new(rt, Doorbell::spinning()).ok()?;
    let rooms = vec![in rt.alloc(); 1usize; ROOMS].ok()?;
    for _ in 0..LISTS {
        let mut out = Vec::new(rt.alloc());
        let mut cx = solo.begin();
        let driven = reader.drive(&mut cx, &rooms, &mut out);
        cx.cancel();
        driven.ok()?;
        if bytes_in(&out) > 1 {
            return Some(true);
        }
    }
    Some(false)
}

/// Writes bytes until it is told to stop, or was polled often enough.
fn writes_until<R, S>(rt: &R, writer: &mut S, is_over: &AtomicU64)
where
    R: RandomSource + AllocGlobal,
    S: AsyncWrite,
{
    let Ok(solo) = Solo::new(rt, Doorbell::spinning()) else {
        return;
    };
    for _ in 0..POLLS {
        if is_over.load(SeqCst) == 1 {
            return;
        }
        let mut cx = solo.begin();
        let answer = writer.poll_write(&mut cx, b"x");
        cx.cancel();
        match answer {
            Poll::Pending => thread::yield_now(),
            Poll::Ready(Ok(_)) => (),
            Poll::Ready(Err(_)) => return,
        }
    }
}

fn drive_beside_a_writer<R, B>(
    rt: R,
    journal: Journal<Pipe>,
    counters: NewCounters,
) -> Result<(), Fail>
where
    R: Threads + Wait + Abort + RandomSource + AllocGlobal + Copy + Send + Sync,
    B: CounterNames + Send + Sync,
    requires { counters ≡ B.names }
{
    let split = split_journalled::<Yielding<R>, Pipe, B>(Yielding { rt }, journal, counters);
    let Ok((mut reader, mut writer)) = split else {
        return Err(Fail::from("memory"));
    };
    let over = AtomicU64::new(0);
    let is_over = &over;
    let (went_on, ()) = thread::join(
        &rt,
        move || {
            let went_on = drives_past_a_write(&rt, &mut reader);
            is_over.store(1, SeqCst);
            went_on
        },
        move || writes_until(&rt, &mut writer, is_over),
    );
    assert_eq!(rt; went_on, Some(true));
    Ok(())
}

#[test]
fn a_half_that_is_driven_lets_the_other_go_on(rt: HostRuntime) -> Result<(), Fail> {
    let Ok(journal) = Journal::new(rt.alloc(), Pipe::new()) else {
        return Err(Fail::from("memory"));
    };
    drive_beside_a_writer::<HostRuntime, Brand>(rt, journal, NewCounters::new())
}
