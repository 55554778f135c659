use super::ranked;
use futures_lite::Poll;
use futures_lite::io::ErrorKind;
use lite_mock::{Marks, Order, Takes};
use std::io;
use std::test::Fail;
use test_support::{finishes, gives, try_read_room, try_write_both, write};

/// Whether a reader gives `abc`, `d`, a pending and an end, and then ends for ever.
fn gives_what_is_told(rt: &HostRuntime, marks: &mut Marks) -> io::Result<bool> {
    Ok(
        gives(rt, marks, 0, b"")?
            && gives(rt, marks, 2, b"ab")?
            && gives(rt, marks, 2, b"c")?
            && gives(rt, marks, 2, b"d")?
            && try_read_room(rt, marks, 0)? == Poll::Pending
            && gives(rt, marks, 2, b"")?
            && gives(rt, marks, 2, b"")?,
    )
}

/// Whether a writer takes two bytes, waits, fails, and then takes all.
fn takes_what_is_told(rt: &HostRuntime, takes: &mut Takes) -> io::Result<bool> {
    Ok(
        write(rt, takes, b"abc")? == Poll::Ready(Ok(2))
            && write(rt, takes, b"c")? == Poll::Pending
            && write(rt, takes, b"c")? == Poll::Ready(Err(ErrorKind::Other))
            && try_write_both(rt, takes, b"", b"cde")? == Poll::Ready(Ok(3))
            && finishes(rt, takes)?
            && takes.taken() == b"abcde".as_slice(),
    )
}

#[test]
fn readers_and_writers_that_are_told(rt: HostRuntime) -> Result<(), Fail> {
    let mut marks = Marks::new(rt.alloc());
    marks.chunk(b"abc")?;
    marks.chunk(b"d")?;
    marks.pending()?;
    marks.end()?;
    let mut same = ranked(marks.clone()?);
    assert!(rt; gives_what_is_told(&rt, &mut marks)?);
    assert!(rt; gives_what_is_told(&rt, &mut same)?);

    let mut takes = Takes::new(rt.alloc());
    takes.order(Order::AtMost(2))?;
    takes.order(Order::Wait)?;
    takes.order(Order::Fail(ErrorKind::Other))?;
    let mut same = takes.clone()?;
    assert!(rt; takes_what_is_told(&rt, &mut takes)?);
    assert!(rt; takes_what_is_told(&rt, &mut same)?);
    Ok(())
}
