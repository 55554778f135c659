ghost use Rattle.std.specs.Prelude.{◌≡◌, IfOk};
ghost use Rattle.lite_halves.specs.Counts.{AllWrites};

use futures::task::{Doorbell, Solo};
use futures_lite::io::{
    Answer, Call, CounterNames, Cursor, Entry, Journal, JournalReadHalf, JournalWriteHalf,
    NewCounters, history, split_journalled,
};
use std::alloc::{AllocError, AllocGlobal, Global};
use std::marker::Brand;
use std::process::Abort;
use std::random::RandomSource;
use std::sync::Wait;
use std::test::Fail;
use std::thread;
use std::thread::Threads;
use test_support::{are, journal_on};

type VecCursor = Cursor<Vec<u8>>;

// How many calls each half makes in a round.
const CALLS: usize = 1000;

/// As many one-byte writes as a round has; the bytes count up modulo 251.
fn writes(alloc: Global) -> Result<Vec<Call>, AllocError>
    ensures { IfOk result (λ calls. AllWrites calls.items) }
{
    let mut calls = Vec::new(alloc);
    for i in 0..CALLS {
        let byte = (i % 251) as u8;
        calls.push(Call::Write(vec![in alloc; byte]?))?;
    }
    Ok(calls)
}

type Reading<R, B> = JournalReadHalf<R, VecCursor, B>;

type Writing<R, B> = JournalWriteHalf<R, VecCursor, B>;

/// A round of reads of one byte, in a task of its own. `None`: memory was refused.
fn read_round<R: Wait + RandomSource + AllocGlobal + Drop, B: CounterNames>(
    rt: R,
    mut reader: Reading<R, B>,
    mut out: Vec<Answer>,
) -> Option<(Reading<R, B>, Vec<Answer>)> {
    let solo = Solo::new(&rt, Doorbell::spinning()).ok()?;
    let rooms = vec![in rt.alloc(); 1usize; CALLS].ok()?;
    let mut cx = solo.begin();
    let driven = reader.drive(&mut cx, &rooms, &mut out);
    cx.cancel();
    driven.ok()?;
    Some((reader, out))
}

/// A round of writes, in a task of its own. `None`: memory was refused.
fn write_round<R: Wait + RandomSource + AllocGlobal + Drop, B: CounterNames>(
    rt: R,
    mut writer: Writing<R, B>,
    mut out: Vec<Answer>,
) -> Option<(Writing<R, B>, Vec<Answer>)> {
    let solo = Solo::new(&rt, Doorbell::spinning()).ok()?;
    let Ok(calls) = writes(rt.alloc()) else {
        return None;
    };
    let mut cx = solo.begin();
    let driven = writer.drive(&mut cx, &calls, &mut out);
    cx.cancel();
    driven.ok()?;
    Some((writer, out))
}

/// Asserts that each half's calls and answers are, in order, those of its entries.
fn assert_in_order<R: Abort + AllocGlobal + Copy>(
    rt: R,
    entries: &[Entry],
    reads: &[Answer],
    wrote: &[Answer],
) -> Result<(), Fail> {
    let calls = writes(rt.alloc())?;
    let mut read_left = reads.iter();
    let mut wrote_left = wrote.iter();
    let mut calls_left = calls.iter().cycle();
    for entry in entries {
        match entry.call {
            Call::Read { room } => {
                assert_eq!(rt; room, 1);
                assert_eq!(rt; read_left.next(), Some(&entry.answer));
            }
            Call::Write(_) | Call::Flush | Call::Close => {
                assert_eq!(rt; calls_left.next(), Some(&entry.call));
                assert_eq!(rt; wrote_left.next(), Some(&entry.answer));
            }
        }
    }
    assert!(rt; read_left.next().is_none() && wrote_left.next().is_none());
    Ok(())
}

/// Asserts that the entries' calls, made by one thread on the start, are told the same and leave the same.
fn assert_replays<R: Abort + RandomSource + AllocGlobal + Copy>(
    rt: R,
    told: Journal<VecCursor>,
) -> Result<(), Fail> {
    let alloc = rt.alloc();
    let mut calls = Vec::new(alloc);
    let mut answers = Vec::new(alloc);
    for entry in told.entries() {
        calls.push(entry.call.clone()?)?;
        answers.push(entry.answer.clone()?)?;
    }
    let Ok(mut again) = Journal::new(alloc, told.start().clone()?) else {
        return Err(Fail::from("memory"));
    };
    let solo = Solo::new(&rt, Doorbell::spinning())?;
    let mut out = Vec::new(alloc);
    let mut cx = solo.begin();
    let driven = again.drive(&mut cx, &calls, &mut out);
    cx.cancel();
    driven?;
    assert!(rt; are(again.entries(), &calls, &answers));
    let (left, right) = (again.into_inner(), told.into_inner());
    assert_eq!(rt; left.position(), right.position());
    assert_eq!(rt; left.into_inner().as_slice(), right.into_inner().as_slice());
    Ok(())
}

/// The history, asked for by a thread that is lent both halves.
fn asked_in_a_thread<R, B>(
    rt: &R,
    reader: &mut Reading<R, B>,
    writer: &mut Writing<R, B>,
) -> Result<Journal<VecCursor>, AllocError>
where
    R: Threads + Wait + Send + Sync,
    B: CounterNames + Send + Sync,
{
    thread::join(rt, || history(reader, writer), || ()).0
}

/// The two halves, and what each was told.
#[derive(Drop)]
struct Halves<R, B: CounterNames> {
    reader: Reading<R, B>,
    writer: Writing<R, B>,
    reads: Vec<Answer>,
    wrote: Vec<Answer>,
}

/// A round of each half, in two threads. `None`: memory was refused.
fn round<R, B>(rt: R, halves: Halves<R, B>) -> Option<Halves<R, B>>
where
    R: Threads + Wait + RandomSource + AllocGlobal + Copy + Send + Sync,
    B: CounterNames + Send + Sync,
{
    let Halves {
        reader,
        writer,
        reads,
        wrote,
    } = halves;
    let (read, written) = thread::join(
        &rt,
        move || read_round(rt, reader, reads),
        move || write_round(rt, writer, wrote),
    );
    let (reader, reads) = read?;
    let (writer, wrote) = written?;
    Some(Halves {
        reader,
        writer,
        reads,
        wrote,
    })
}

/// What is told after each half has made so many calls.
fn told_after<R, B>(
    rt: R,
    halves: &mut Halves<R, B>,
    calls: u64,
) -> Result<Journal<VecCursor>, Fail>
where
    R: Threads + Wait + Abort + AllocGlobal + Copy + Send + Sync,
    B: CounterNames + Send + Sync,
{
    let told = asked_in_a_thread(&rt, &mut halves.reader, &mut halves.writer)?;
    assert_eq!(rt;
        (halves.reader.calls(), halves.writer.calls()),
        (calls, calls)
    );
    assert_eq!(rt; told.entries().len() as u64, calls.wrapping_mul(2));
    assert_in_order(rt, told.entries(), &halves.reads, &halves.wrote)?;
    Ok(told)
}

fn two_rounds<R, B>(rt: R, journal: Journal<VecCursor>, counters: NewCounters) -> Result<(), Fail>
where
    R: Threads + Wait + Abort + RandomSource + AllocGlobal + Copy + Send + Sync,
    B: CounterNames + Send + Sync,
    requires { counters ≡ B.names }
{
    let Ok((reader, writer)) = split_journalled::<R, VecCursor, B>(rt, journal, counters) else {
        return Err(Fail::from("memory"));
    };
    let (reads, wrote) = (Vec::new(rt.alloc()), Vec::new(rt.alloc()));
    let halves = Halves {
        reader,
        writer,
        reads,
        wrote,
    };
    let mut halves = round(rt, halves).ok_or(AllocError)?;
    let first = told_after(rt, &mut halves, 1000)?;
    let mut halves = round(rt, halves).ok_or(AllocError)?;
    let second = told_after(rt, &mut halves, 2000)?;
    assert!(rt; second.entries().starts_with(first.entries()));
    assert_replays(rt, second)
}

#[test]
fn two_threads_leave_one_history(rt: HostRuntime) -> Result<(), Fail> {
    let mut bytes = Vec::new(rt.alloc());
    for i in 0..4000usize {
        bytes.push((i % 256) as u8)?;
    }
    let journal = journal_on(rt.alloc(), &bytes)?;
    two_rounds::<HostRuntime, Brand>(rt, journal, NewCounters::new())
}
