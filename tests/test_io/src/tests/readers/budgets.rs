use super::ranked;
use futures_lite::io::{AsyncReadExt, AsyncSeekExt, AsyncWriteExt, Cursor, SeekFrom};
use futures_lite::{AsyncBufReadExt, Poll, StreamExt, future};
use std::io;
use std::test::Fail;
use test_support::{cursor_on, gives, lends, try_read_room};

#[test]
fn a_budget_hands_on_writes_and_seeks_and_its_reader(rt: HostRuntime) -> Result<(), Fail> {
    let mut reader = ranked(cursor_on(rt.alloc(), b"abcd")?.with_budget(3));
    assert!(rt; gives(&rt, &mut reader, 2, b"ab")?);
    assert_eq!(rt; future::block_on(&rt, reader.write_all(b"x"))??, ());
    assert_eq!(rt; future::block_on(&rt, reader.seek(SeekFrom::Start(1)))??, 1);
    assert_eq!(rt; future::block_on(&rt, reader.flush())??, ());
    // One byte is left of the budget.
    assert!(rt; lends(&rt, &mut reader, b"b")?);
    assert!(rt; gives(&rt, &mut reader, 9, b"b")?);
    assert_eq!(rt; try_read_room(&rt, &mut reader, 9)?, Poll::Pending);
    reader.get_mut().set_position(2);
    assert_eq!(rt; reader.get_ref().position(), 2);
    assert!(rt; gives(&rt, &mut reader, 9, b"xd")?);
    assert_eq!(rt;
        reader.into_inner().into_inner().as_slice(),
        b"abxd".as_slice()
    );
    Ok(())
}

#[test]
fn all_lines_of_a_budgeted_reader_are_collected(rt: HostRuntime) -> Result<(), Fail> {
    let reader = Cursor::new(b"a\nbc\n\nd".as_slice()).with_budget(1);
    let lines = reader.lines(rt.alloc()).with_budget(1);
    let all = lines.try_collect::<String, io::Error, Vec<String>>(rt.alloc());
    let lines = future::block_on(&rt, all)?.map_err(|_| io::Error::from(
        io::ErrorKind::OutOfMemory,
    ))?;
    let expected = ["a", "bc", "", "d"];
    assert_eq!(rt; lines.len(), expected.len());
    for (line, wanted) in lines.iter().zip(expected) {
        assert_eq!(rt; line.as_str(), wanted);
    }
    Ok(())
}
