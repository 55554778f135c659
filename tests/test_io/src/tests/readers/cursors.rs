use futures_lite::Poll;
use futures_lite::io::{self, AsyncRead, Cursor};
use std::test::Fail;
use test_support::{gives, try_read_both};

/// Whether a vectored read into two buffers of that room gives these bytes.
pub(super) fn gives_both<S: AsyncRead>(
    rt: &HostRuntime,
    reader: &mut S,
    rooms: (usize, usize),
    first: &[u8],
    second: &[u8],
) -> io::Result<bool> {
    let mut one = vec![in rt.alloc(); b'-'; rooms.0]?;
    let mut two = vec![in rt.alloc(); b'-'; rooms.1]?;
    let answer = try_read_both(rt, reader, one.as_mut_slice(), two.as_mut_slice())?;
    Ok(
        answer == Poll::Ready(Ok(first.len() + second.len()))
            && one.as_slice().starts_with(first)
            && two.as_slice().starts_with(second),
    )
}

#[test]
fn a_cursor_is_cloned_and_begins_empty(rt: HostRuntime) -> Result<(), Fail> {
    let mut cursor = Cursor::new(Vec::from_slice(rt.alloc(), b"abc")?);
    cursor.set_position(1);
    let mut same = cursor.clone()?;
    same.get_mut().truncate(2);
    assert!(rt; gives(&rt, &mut same, 9, b"b")?);
    assert!(rt; gives_both(&rt, &mut cursor, (0, 9), b"", b"bc")?);

    let mut empty: Cursor<&'static [u8]> = Cursor::default();
    assert_eq!(rt; empty.position(), 0);
    assert!(rt; gives(&rt, &mut empty, 1, b"")?);
    Ok(())
}
