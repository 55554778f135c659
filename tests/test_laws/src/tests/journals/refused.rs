ghost use Rattle.std.specs.Prelude.{◌≡◌};
ghost use Rattle.lite_io_base.specs.Runs.{Idle};
ghost use Rattle.lite_io_base.specs.Laws.Runs.{idle_laws};

use futures_lite::Poll;
use futures_lite::io::{
    self, AsyncRead, AsyncWrite, Call, CounterNames, Cursor, ErrorKind, Journal, JournalReadHalf,
    JournalWriteHalf, NewCounters, ReadSpec, WriteSpec, history, split_journalled,
};
use std::alloc::{AllocError, AllocGlobal};
use std::marker::Brand;
use std::process::Abort;
use std::random::RandomSource;
use std::sync::Wait;
use std::test::Fail;
use test_support::{
    Refusing, are, cursor_on, got, journal_on, reads_byte, try_read, try_write, write,
};

type VecCursor = Cursor<Vec<u8>>;

// Memory is refused in the next where a test is run with allocations that fail.

/// Whether memory was found for a read of one byte, which is asserted to give `x` then.
fn finds_memory_to_read<R, S>(rt: R, reader: &mut S) -> Result<bool, Fail>
where
    R: Abort + RandomSource + AllocGlobal + Copy,
    S: AsyncRead,
{
    let mut buf = [0u8];
    let answer = try_read(&rt, reader, &mut buf)?;
    if answer == Poll::Ready(Err(ErrorKind::OutOfMemory)) {
        return Ok(false);
    }
    assert_eq!(rt; (answer, buf[0]), (Poll::Ready(Ok(1)), b'x'));
    Ok(true)
}

/// Asserts that a write of `z`, made again where memory was refused to it, takes it.
fn assert_writes_at_last<R, S>(rt: R, writer: &mut S) -> Result<(), Fail>
where
    R: Abort + RandomSource + AllocGlobal + Copy,
    S: AsyncWrite,
{
    if try_write(&rt, writer, b"z")? == Poll::Ready(Err(ErrorKind::OutOfMemory)) {
        assert_eq!(rt; write(&rt, writer, b"z")?, Poll::Ready(Ok(1)));
    }
    Ok(())
}

/// A read and a write by two halves, each made again where memory was refused, and what is told of them.
fn move_at_last<R, B>(
    rt: R,
    reader: &mut JournalReadHalf<R, VecCursor, B>,
    writer: &mut JournalWriteHalf<R, VecCursor, B>,
) -> Result<(), Fail>
where
    R: Wait + Abort + RandomSource + AllocGlobal + Copy,
    B: CounterNames,
{
    if !finds_memory_to_read(rt, reader)? {
        assert_eq!(rt; (reader.calls(), reader.bytes()), (0, 0));
        assert!(rt; reads_byte(&rt, reader, b'x')?);
    }
    assert_eq!(rt; (reader.calls(), reader.bytes()), (1, 1));
    assert_writes_at_last(rt, writer)?;
    let told = match history(reader, writer) {
        Ok(told) => told,
        Err(AllocError) => history(reader, writer)?,
    };
    assert_eq!(rt;
        told.entries().len() as u64,
        reader.calls().wrapping_add(writer.calls())
    );
    assert_eq!(rt; told.into_inner().into_inner().as_slice(), b"xz".as_slice());
    Ok(())
}

fn refused_entries<R, B>(
    rt: R,
    journal: Journal<VecCursor>,
    counters: NewCounters,
) -> Result<(), Fail>
where
    R: Wait + Abort + RandomSource + AllocGlobal + Copy,
    B: CounterNames,
    requires { counters ≡ B.names }
{
    let Ok((mut reader, mut writer)) = split_journalled::<R, VecCursor, B>(rt, journal, counters)
    else {
        return Err(Fail::from("memory"));
    };
    move_at_last(rt, &mut reader, &mut writer)
}

#[test]
fn a_refused_entry_of_a_half_changes_nothing(rt: HostRuntime) -> Result<(), Fail> {
    let journal = journal_on(rt.alloc(), b"xy")?;
    refused_entries::<HostRuntime, Brand>(rt, journal, NewCounters::new())
}

/// The journal that a refused split hands back.
fn handed_back<R, B>(
    rt: R,
    journal: Journal<VecCursor>,
    counters: NewCounters,
) -> Option<Journal<VecCursor>>
where
    R: Wait + AllocGlobal + Clone + Drop,
    B: CounterNames,
    requires { counters ≡ B.names }
{
    match split_journalled::<R, VecCursor, B>(rt, journal, counters) {
        Ok(_) => None,
        Err(back) => Some(back),
    }
}

#[test]
fn a_refused_split_hands_the_journal_back(rt: HostRuntime) -> Result<(), Fail> {
    let mut journal = journal_on(rt.alloc(), b"xy")?;
    assert!(rt; reads_byte(&rt, &mut journal, b'x')?);
    let back = handed_back::<Refusing<HostRuntime>, Brand>(
        Refusing { rt },
        journal,
        NewCounters::new(),
    );
    let Some(back) = back else {
        return Err(Fail::from("nothing was refused"));
    };
    assert!(rt;
        are(
            back.entries(),
            &[Call::Read { room: 1 }],
            &[got(rt.alloc(), b"x")?]
        )
    );
    assert_eq!(rt; back.into_inner().position(), 1);
    Ok(())
}

#[test]
fn a_refused_split_hands_the_stream_back(rt: HostRuntime) -> Result<(), Fail> {
    let mut cursor = cursor_on(rt.alloc(), b"xy")?;
    cursor.set_position(1);
    let Err(back) = io::split(Refusing { rt }, cursor) else {
        return Err(Fail::from("nothing was refused"));
    };
    assert_eq!(rt; back.position(), 1);
    assert_eq!(rt; back.into_inner().as_slice(), b"xy".as_slice());
    Ok(())
}

/// A stream whose clone is refused, as for want of memory.
#[derive(Drop)]
struct Single {
    number: u8,
}

impl Clone for Single {
    ghost is_clone = { λ _ _. ⊥ };

    fn clone(&self) -> Result<Single, AllocError> {
        Err(AllocError)
    }
}

impl ReadSpec for Single {
    ghost reads = { Idle };

    ghost read_laws = { idle_laws };
}

impl WriteSpec for Single {
    ghost writes = { Idle };

    ghost write_laws = { idle_laws };
}

#[test]
fn a_refused_journal_hands_its_stream_back(rt: HostRuntime) -> Result<(), Fail> {
    let Err(back) = Journal::new(rt.alloc(), Single { number: 7 }) else {
        return Err(Fail::from("nothing was refused"));
    };
    assert_eq!(rt; back.number, 7);
    Ok(())
}
