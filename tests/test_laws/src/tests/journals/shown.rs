//! What journals and halves show of themselves.
ghost use Rattle.std.specs.Prelude.{◌≡◌};

use futures_lite::io::{self, CounterNames, Cursor, Journal, NewCounters, split_journalled};
use std::alloc::{AllocError, AllocGlobal};
use std::marker::Brand;
use std::process::Abort;
use std::sync::Wait;
use std::test::Fail;
use test_support::{journal_on, reads_byte, shows};

#[test]
fn halves_show_what_they_share(rt: HostRuntime) -> Result<(), Fail> {
    let Ok((reader, writer)) = io::split(rt, Cursor::new([1u8, 2])) else {
        return Err(AllocError.into());
    };
    let shared = "Mutex { data: Cursor { inner: [1, 2], position: 0 }, poisoned: false, .. }";
    assert!(rt;
        shows(
            &rt,
            &reader,
            format!(in rt.alloc(); "ReadHalf({shared})")?.as_str(),
        )?
    );
    assert!(rt;
        shows(
            &rt,
            &writer,
            format!(in rt.alloc(); "WriteHalf({shared})")?.as_str(),
        )?
    );
    Ok(())
}

#[test]
fn a_journal_shows_its_entries(rt: HostRuntime) -> Result<(), Fail> {
    let mut journal = journal_on(rt.alloc(), &[1, 2])?;
    assert!(rt; reads_byte(&rt, &mut journal, 1)?);
    let start = "Cursor { inner: [1, 2], position: 0 }";
    let stream = "Cursor { inner: [1, 2], position: 1 }";
    let entry = "Entry { call: Read { room: 1 }, answer: Read([1]) }";
    let held = format!(in rt.alloc(); "start: {start}, stream: {stream}, entries: [{entry}]")?;
    let text = format!(in rt.alloc(); "Journal {{ {held}, alloc: Global }}")?;
    assert!(rt; shows(&rt, &journal, text.as_str())?);
    Ok(())
}

/// Asserts how both halves of a journal of one read are shown.
fn halves_show<R, B>(
    rt: R,
    journal: Journal<Cursor<Vec<u8>>>,
    counters: NewCounters,
) -> Result<(), Fail>
where
    R: Wait + Abort + AllocGlobal + Copy,
    B: CounterNames,
    requires { counters ≡ B.names }
{
    let halves = split_journalled::<R, Cursor<Vec<u8>>, B>(rt, journal, counters);
    let Ok((reader, writer)) = halves else {
        return Err(AllocError.into());
    };
    assert!(rt; shows(&rt, &reader, "JournalReadHalf { calls: 1, bytes: 1, .. }")?);
    assert!(rt; shows(&rt, &writer, "JournalWriteHalf { calls: 0, bytes: 0, .. }")?);
    Ok(())
}

#[test]
fn halves_of_a_journal_show_how_often_they_were_called(rt: HostRuntime) -> Result<(), Fail> {
    let mut journal = journal_on(rt.alloc(), &[1, 2])?;
    assert!(rt; reads_byte(&rt, &mut journal, 1)?);
    halves_show::<HostRuntime, Brand>(rt, journal, NewCounters::new())
}
