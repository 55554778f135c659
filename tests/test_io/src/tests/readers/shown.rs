//! What readers, and the futures and streams of reading, show of themselves.
use futures_lite::io::{self, BufReader, Cursor, SeekFrom};
use futures_lite::prelude::*;
use std::alloc::AllocError;
use std::io::IoSliceMut;
use std::test::Fail;
use test_support::{gives, shows};

#[test]
fn sources_of_bytes_show_what_they_hold(rt: HostRuntime) -> Result<(), Fail> {
    assert!(rt; shows(&rt, &io::empty(), "Empty { .. }")?);
    assert!(rt; shows(&rt, &io::repeat(7), "Repeat { byte: 7 }")?);
    let mut cursor = Cursor::new([1u8, 2]);
    cursor.set_position(1);
    assert!(rt; shows(&rt, &cursor, "Cursor { inner: [1, 2], position: 1 }")?);
    Ok(())
}

#[test]
fn a_buffered_reader_shows_how_much_it_holds(rt: HostRuntime) -> Result<(), Fail> {
    let bytes: &[u8] = &[1, 2, 3, 4, 5, 6];
    let Ok(mut reader) = BufReader::with_capacity(rt.alloc(), 4, bytes) else {
        return Err(AllocError.into());
    };
    assert!(rt; gives(&rt, &mut reader, 1, &[1])?);
    assert!(rt; shows(&rt, &reader, "BufReader { reader: [5, 6], buffer: 3/4 }")?);
    Ok(())
}

#[test]
fn readers_over_others_show_those(rt: HostRuntime) -> Result<(), Fail> {
    let mut both = io::repeat(1).take(2).chain(io::repeat(3));
    assert!(rt; gives(&rt, &mut both, 1, &[1])?);
    assert!(rt;
        shows(
            &rt,
            &both,
            "Chain { r1: Take { inner: Repeat { byte: 1 }, limit: 1 }, r2: Repeat { byte: 3 } }",
        )?
    );
    let mut budgeted = io::repeat(1).with_budget(4);
    assert!(rt; gives(&rt, &mut budgeted, 3, &[1, 1, 1])?);
    assert!(rt;
        shows(
            &rt,
            &budgeted,
            "Budgeted { reader: Repeat { byte: 1 }, budget: 4, left: Some(1) }",
        )?
    );
    Ok(())
}

#[test]
fn futures_of_reading_show_what_they_hold(rt: HostRuntime) -> Result<(), Fail> {
    let (mut reader, mut buf, mut other) = (io::repeat(1), [0u8; 2], [0u8; 1]);
    assert!(rt;
        shows(
            &rt,
            &reader.read(&mut buf),
            "ReadFuture { reader: Repeat { byte: 1 }, buf: [0, 0] }",
        )?
    );
    assert!(rt;
        shows(
            &rt,
            &reader.read_exact(&mut buf),
            "ReadExactFuture { reader: Repeat { byte: 1 }, buf: [0, 0], filled: 0 }",
        )?
    );
    let mut bufs = [IoSliceMut::new(&mut buf), IoSliceMut::new(&mut other)];
    assert!(rt;
        shows(
            &rt,
            &reader.read_vectored(&mut bufs),
            "ReadVectoredFuture { reader: Repeat { byte: 1 }, bufs: Some([[0, 0], [0]]) }",
        )?
    );
    let bytes: &[u8] = &[1, 2];
    let mut cursor = Cursor::new(bytes);
    assert!(rt;
        shows(
            &rt,
            &cursor.fill_buf(),
            "FillBuf { reader: Some(Cursor { inner: [1, 2], position: 0 }) }",
        )?
    );
    assert!(rt;
        shows(
            &rt,
            &cursor.seek(SeekFrom::End(-1)),
            "SeekFuture { seeker: Cursor { inner: [1, 2], position: 0 }, pos: End(-1) }",
        )?
    );
    Ok(())
}

#[test]
fn futures_of_pieces_show_what_they_hold(rt: HostRuntime) -> Result<(), Fail> {
    let mut reader: &[u8] = &[1, 2];
    let mut bytes = Vec::from_slice(rt.alloc(), &[7])?;
    let mut text = String::from_str(rt.alloc(), "a")?;
    assert!(rt;
        shows(
            &rt,
            &reader.read_until(2, &mut bytes),
            "ReadUntilFuture { reader: [1, 2], byte: 2, buf: [7], start: 1 }",
        )?
    );
    assert!(rt;
        shows(
            &rt,
            &reader.read_to_end(&mut bytes),
            "ReadToEndFuture { reader: [1, 2], buf: [7], start: 1, filled: 1, room: 0 }",
        )?
    );
    assert!(rt;
        shows(
            &rt,
            &reader.read_line(&mut text),
            "ReadLineFuture { reader: [1, 2], text: \"a\", bytes: [], ascii: true }",
        )?
    );
    assert!(rt;
        shows(
            &rt,
            &reader.read_to_string(&mut text),
            "ReadToStringFuture { reader: [1, 2], text: \"a\", bytes: [], filled: 0, room: 0 }",
        )?
    );
    Ok(())
}

#[test]
fn streams_over_readers_show_what_they_hold(rt: HostRuntime) -> Result<(), Fail> {
    let reader: &[u8] = &[1, 2];
    assert!(rt; shows(&rt, &AsyncReadExt::bytes(reader), "Bytes { inner: [1, 2] }")?);
    assert!(rt;
        shows(
            &rt,
            &AsyncBufReadExt::lines(reader, rt.alloc()),
            "Lines { reader: [1, 2], held: LineBytes { bytes: [], ascii: true }, alloc: Global }",
        )?
    );
    assert!(rt;
        shows(
            &rt,
            &AsyncBufReadExt::split(reader, rt.alloc(), 9),
            "Split { reader: [1, 2], byte: 9, held: [], alloc: Global }",
        )?
    );
    Ok(())
}
