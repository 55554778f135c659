//! Small examples of writing and seeking.
use super::budget::at_once;
use lite_base::Poll;
use lite_bridge::Cursor;
use lite_buffered::BufWriter;
use lite_io_base::SeekFrom;
use lite_read::make::{read_exact, seek};
use lite_write::make::{copy, flush, write_all};
use std::alloc::AllocError;
use std::io::ErrorKind;
use std::test::Fail;
use test_support::{by_kind, polled};

#[test]
fn a_cursor_is_overwritten_and_read_on(rt: HostRuntime) -> Result<(), Fail> {
    let mut cursor = Cursor::new(Vec::from_slice(rt.alloc(), b"hello")?);
    at_once(polled(&rt, &mut write_all(&mut cursor, b"H"), 1)?)?;
    let place = at_once(polled(&rt, &mut seek(&mut cursor, SeekFrom::Current(1)), 1)?)?;
    assert_eq!(rt; place, 2);
    let mut room = [0u8; 1];
    at_once(polled(&rt, &mut read_exact(&mut cursor, &mut room), 1)?)?;
    assert_eq!(rt; room, *b"l");
    assert_eq!(rt; cursor.into_inner().as_slice(), b"Hello".as_slice());
    Ok(())
}

#[test]
fn a_buffered_writer_appends_to_a_vector(rt: HostRuntime) -> Result<(), Fail> {
    let Ok(mut writer) = BufWriter::new(rt.alloc(), Vec::from_slice(rt.alloc(), &[1u8, 2, 3])?)
    else {
        return Err(AllocError.into());
    };
    at_once(polled(&rt, &mut write_all(&mut writer, &[4]), 1)?)?;
    at_once(polled(&rt, &mut flush(&mut writer), 1)?)?;
    assert_eq!(rt; writer.into_inner().as_slice(), [1, 2, 3, 4].as_slice());
    Ok(())
}

#[test]
fn a_copy_ends_where_the_writer_is_full(rt: HostRuntime) -> Result<(), Fail> {
    let mut room = [b'-'; 3];
    let Ok(mut copying) = copy(rt.alloc(), b"hello".as_slice(), Cursor::new(&mut room[..])) else {
        return Err(AllocError.into());
    };
    let copied = polled(&rt, &mut copying, 1)?.pop().map(by_kind);
    drop(copying);
    assert_eq!(rt; copied, Some(Poll::Ready(Err(ErrorKind::WriteZero))));
    assert_eq!(rt; room, *b"hel");
    Ok(())
}
