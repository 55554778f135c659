//! A journal that is given a list of calls and then split.
ghost use Rattle.std.specs.Prelude.{◌≡◌};

use futures::task::{Doorbell, Solo};
use futures_lite::io::{
    Answer, Call, CounterNames, Cursor, Journal, NewCounters, history, split_journalled,
};
use std::alloc::{AllocGlobal, Global};
use std::marker::Brand;
use std::process::Abort;
use std::random::RandomSource;
use std::sync::Wait;
use std::test::Fail;
use test_support::{are, got, journal_on};

type VecCursor = Cursor<Vec<u8>>;

/// A read of a byte, a write of one, a flush, a close and another read.
fn calls(alloc: Global) -> Result<[Call; 5], Fail> {
    Ok([
        Call::Read { room: 1 },
        Call::Write(Vec::from_slice(alloc, b"z")?),
        Call::Flush,
        Call::Close,
        Call::Read { room: 1 },
    ])
}

/// Asserts what the halves of a journal of these calls tell, and what it leaves.
fn assert_told<R, B>(
    rt: R,
    journal: Journal<VecCursor>,
    answers: &[Answer],
    counters: NewCounters,
) -> Result<(), Fail>
where
    R: Wait + Abort + RandomSource + AllocGlobal + Copy,
    B: CounterNames,
    requires { counters ≡ B.names }
{
    let Ok((mut reader, mut writer)) = split_journalled::<R, VecCursor, B>(rt, journal, counters)
    else {
        return Err(Fail::from("memory"));
    };
    assert_eq!(rt; (reader.calls(), writer.calls()), (2, 3));
    assert_eq!(rt; (reader.bytes(), writer.bytes()), (1, 1));
    let told = history(&mut reader, &mut writer)?;
    assert!(rt; are(told.entries(), &calls(rt.alloc())?, answers));
    assert_eq!(rt; told.into_inner().into_inner().as_slice(), b"xz".as_slice());
    Ok(())
}

#[test]
fn the_halves_of_a_driven_journal_tell_its_calls(rt: HostRuntime) -> Result<(), Fail> {
    let mut journal = journal_on(rt.alloc(), b"xy")?;
    let solo = Solo::new(&rt, Doorbell::spinning())?;
    let calls_made = calls(rt.alloc())?;
    let mut answers = Vec::new(rt.alloc());
    let mut cx = solo.begin();
    let driven = journal.drive(&mut cx, &calls_made, &mut answers);
    cx.cancel();
    driven?;
    let expected = [
        got(rt.alloc(), b"x")?,
        Answer::Wrote(1),
        Answer::Done,
        Answer::Done,
        got(rt.alloc(), b"")?,
    ];
    assert_eq!(rt; answers.as_slice(), expected.as_slice());
    assert!(rt; are(journal.entries(), &calls_made, &expected));
    assert_told::<HostRuntime, Brand>(rt, journal, &expected, NewCounters::new())
}
