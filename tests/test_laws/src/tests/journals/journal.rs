use futures_lite::Poll;
use futures_lite::io::{Answer, ErrorKind, Journal};
use lite_mock::Marks;
use std::alloc::{AllocError, Global};
use std::test::Fail;
use test_support::{cursor_on, read, try_read};

/// A journal of a reader of the chunk `xy`.
pub(super) fn journal_of_chunk(alloc: Global) -> Result<Journal<Marks>, AllocError> {
    let mut marks = Marks::new(alloc);
    marks.chunk(b"xy")?;
    match Journal::new(alloc, marks) {
        Ok(journal) => Ok(journal),
        Err(_) => Err(AllocError),
    }
}

// Memory is refused here where the test is run with allocations that fail.
#[test]
fn a_refused_entry_changes_nothing(rt: HostRuntime) -> Result<(), Fail> {
    let mut journal = journal_of_chunk(rt.alloc())?;
    let mut buf = [0u8];
    for (entries, byte) in b"xy".iter().enumerate() {
        let mut answer = try_read(&rt, &mut journal, &mut buf)?;
        if answer == Poll::Ready(Err(ErrorKind::OutOfMemory)) {
            assert_eq!(rt; journal.entries().len(), entries);
            answer = read(&rt, &mut journal, &mut buf)?;
        }
        assert_eq!(rt; (answer, buf[0]), (Poll::Ready(Ok(1)), *byte));
        assert_eq!(rt; journal.entries().len(), entries + 1);
    }
    Ok(())
}

#[test]
fn the_start_is_what_was_handed_in(rt: HostRuntime) -> Result<(), Fail> {
    let alloc = rt.alloc();
    let mut cursor = cursor_on(alloc, b"xy")?;
    cursor.set_position(1);
    let Ok(mut journal) = Journal::new(alloc, cursor) else {
        return Err(Fail::from("memory"));
    };
    let mut buf = [0u8];
    assert_eq!(rt; read(&rt, &mut journal, &mut buf)?, Poll::Ready(Ok(1)));
    assert_eq!(rt; buf[0], b'y');
    assert_eq!(rt; journal.start().position(), 1);
    assert_eq!(rt; journal.into_inner().position(), 2);
    Ok(())
}

#[test]
fn an_entry_keeps_no_more_room_than_what_came(rt: HostRuntime) -> Result<(), Fail> {
    let mut journal = journal_of_chunk(rt.alloc())?;
    let mut buf = [0u8; 1000];
    assert_eq!(rt; read(&rt, &mut journal, &mut buf)?, Poll::Ready(Ok(2)));
    let [entry] = journal.entries() else {
        return Err(Fail::from("one call is one entry"));
    };
    let Answer::Read(bytes) = &entry.answer else {
        return Err(Fail::from("a read tells bytes"));
    };
    assert_eq!(rt; bytes.as_slice(), b"xy".as_slice());
    if bytes.capacity() >= 1000 {
        return Err(Fail::from("no memory for less room"));
    }
    Ok(())
}
