use futures_lite::io::{self, AsyncBufRead, BufReader, Cursor};
use futures_lite::laws::{answers_as_cursor, counts_after_seek, keeps_order};
use std::alloc::AllocError;
use std::test::Fail;
use test_support::{cursor_on, gives};

/// A buffered reader with room for so many bytes.
fn buffered<S: Drop>(
    rt: &HostRuntime,
    capacity: usize,
    reader: S,
) -> Result<BufReader<S>, AllocError> {
    match BufReader::with_capacity(rt.alloc(), capacity, reader) {
        Ok(reader) => Ok(reader),
        Err(_) => Err(AllocError),
    }
}

/// A buffered reader over ten digits.
fn digits(
    rt: &HostRuntime,
    capacity: usize,
) -> Result<BufReader<Cursor<&'static [u8]>>, AllocError> {
    buffered(rt, capacity, Cursor::new(b"0123456789".as_slice()))
}

#[test]
fn a_fresh_reader_answers_as_the_bare_cursor(rt: HostRuntime) -> Result<(), Fail> {
    let cursor = Cursor::new(b"0123456789".as_slice());
    let Ok(mut reader) = BufReader::with_capacity(rt.alloc(), 4, cursor) else {
        return Err(AllocError.into());
    };
    answers_as_cursor(&reader);
    assert!(rt; gives(&rt, &mut reader, 1, b"0")?);
    Ok(())
}

#[test]
fn a_reader_of_no_named_capacity_reads_8192_ahead(rt: HostRuntime) -> Result<(), Fail> {
    let Ok(mut reader) = BufReader::new(rt.alloc(), io::repeat(b'x')) else {
        return Err(AllocError.into());
    };
    assert!(rt; gives(&rt, &mut reader, 1, b"x")?);
    assert_eq!(rt; reader.buffer().len(), 8191);
    Ok(())
}

#[test]
fn a_refused_buffer_hands_the_reader_back(rt: HostRuntime) -> Result<(), Fail> {
    let mut cursor = Cursor::new(b"ab".as_slice());
    cursor.set_position(1);
    let Err(mut back) = BufReader::with_capacity(rt.alloc(), usize::MAX, cursor) else {
        return Err(Fail::from("nothing was refused"));
    };
    assert_eq!(rt; back.position(), 1);
    assert!(rt; gives(&rt, &mut back, 2, b"b")?);
    Ok(())
}

#[test]
fn the_inner_reader_can_be_changed(rt: HostRuntime) -> Result<(), Fail> {
    let mut reader = digits(&rt, 4)?;
    assert!(rt; gives(&rt, &mut reader, 1, b"0")?);
    reader.get_mut().set_position(8);
    assert!(rt; gives(&rt, &mut reader, 4, b"123")?);
    assert!(rt; gives(&rt, &mut reader, 4, b"89")?);
    assert_eq!(rt; reader.into_inner().position(), 10);
    Ok(())
}

#[test]
fn laws_of_a_buffered_reader_can_be_asked(rt: HostRuntime) -> Result<(), Fail> {
    let mut reader = buffered(&rt, 4, cursor_on(rt.alloc(), b"abcdef")?)?;
    keeps_order(&reader);
    counts_after_seek(&reader);
    assert!(rt; gives(&rt, &mut reader, 1, b"a")?);
    Ok(())
}
