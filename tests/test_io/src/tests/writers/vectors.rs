use lite_base::Poll;
use lite_bridge::Cursor;
use lite_write::make::sink;
use std::test::Fail;
use test_support::{finishes, gives, try_write_both, write};

#[test]
fn a_lent_vector_is_written_to(rt: HostRuntime) -> Result<(), Fail> {
    let mut bytes = Vec::from_slice(rt.alloc(), b"a")?;
    let appended = try_write_both(&rt, &mut &mut bytes, b"b", b"cd")?;
    assert_eq!(rt; appended, Poll::Ready(Ok(3)));
    let mut cursor = Cursor::new(&mut bytes);
    assert_eq!(rt; write(&rt, &mut cursor, b"A")?, Poll::Ready(Ok(1)));
    assert!(rt; finishes(&rt, &mut cursor)?);
    drop(cursor);
    assert_eq!(rt; bytes.as_slice(), b"Abcd".as_slice());
    assert!(rt; gives(&rt, &mut Cursor::new(&bytes), 9, b"Abcd")?);
    Ok(())
}

#[test]
fn a_cursor_past_its_slice_takes_nothing(rt: HostRuntime) -> Result<(), Fail> {
    let mut room = *b"ab";
    for place in [2, u64::MAX] {
        let mut cursor = Cursor::new(&mut room[..]);
        cursor.set_position(place);
        assert_eq!(rt; write(&rt, &mut cursor, b"x")?, Poll::Ready(Ok(0)));
        assert!(rt; gives(&rt, &mut cursor, 1, b"")?);
        assert_eq!(rt; cursor.position(), place);
    }
    assert_eq!(rt; room, *b"ab");
    Ok(())
}

#[test]
fn a_sink_takes_the_first_slice_that_has_bytes(rt: HostRuntime) -> Result<(), Fail> {
    assert_eq!(rt;
        try_write_both(&rt, &mut sink(), b"", b"cd")?,
        Poll::Ready(Ok(2))
    );
    assert_eq!(rt;
        try_write_both(&rt, &mut sink(), b"b", b"cd")?,
        Poll::Ready(Ok(1))
    );
    assert_eq!(rt;
        try_write_both(&rt, &mut sink(), b"", b"")?,
        Poll::Ready(Ok(0))
    );
    Ok(())
}
