//! Texts for which memory is refused.
use bumpalo::Bump;
use lite_base::{Future, Poll};
use lite_buffered::BufReader;
use lite_mock::Marks;
use lite_read::make::{read_line, read_to_string};
use std::alloc::Global;
use std::io;
use std::io::ErrorKind;
use std::test::Fail;
use test_support::polled;

/// More polls than any of these readers is pending.
const POLLS: usize = 1000;

/// A buffered reader with room for so many bytes.
fn buffered(rt: &HostRuntime, capacity: usize, marks: Marks) -> Result<BufReader<Marks>, Fail> {
    match BufReader::with_capacity(rt.alloc(), capacity, marks) {
        Ok(reader) => Ok(reader),
        Err(_) => Err(Fail::new("no memory for a buffer")),
    }
}

/// The value of a future, and an error by its kind.
fn value<F>(rt: &HostRuntime, future: &mut F) -> Result<Result<usize, ErrorKind>, Fail>
where
    F: Future<Output = io::Result<usize>>,
    requires { F.can_poll future.old }
{
    for answer in polled(rt, future, POLLS)? {
        match answer {
            Poll::Pending => {}
            Poll::Ready(Ok(n)) => return Ok(Ok(n)),
            Poll::Ready(Err(e)) => return Ok(Err(e.kind())),
        }
    }
    Err(Fail::new("it is still pending"))
}

#[test]
fn a_refused_piece_is_not_read(rt: HostRuntime) -> Result<(), Fail> {
    let bump = Bump::new(rt.alloc());
    bump.set_allocation_limit(Some(0));
    let mut marks = Marks::new(rt.alloc());
    marks.chunk(b"ab\n")?;
    let mut reader = buffered(&rt, 8, marks)?;
    let mut none: String<&Bump<Global>> = String::new(&bump);
    let refused = value(&rt, &mut read_line(&mut reader, &mut none))?;
    assert_eq!(rt; refused, Err(ErrorKind::OutOfMemory));
    assert_eq!(rt; none.as_str(), "");
    let mut text = String::new(rt.alloc());
    assert_eq!(rt; value(&rt, &mut read_line(&mut reader, &mut text))?, Ok(3));
    assert_eq!(rt; text.as_str(), "ab\n");
    Ok(())
}

#[test]
fn what_was_read_before_a_refusal_is_in_the_text(rt: HostRuntime) -> Result<(), Fail> {
    let bump = Bump::new(rt.alloc());
    bump.set_allocation_limit(Some(4096));
    let long = vec![in rt.alloc(); b'e'; 8000]?;
    let mut marks = Marks::new(rt.alloc());
    marks.chunk(b"abcd")?;
    marks.pending()?;
    marks.chunk(long.as_slice())?;
    let mut reader = buffered(&rt, 8192, marks)?;
    let mut little: String<&Bump<Global>> = String::new(&bump);
    little.push_str("x")?;
    let refused = value(&rt, &mut read_line(&mut reader, &mut little))?;
    assert_eq!(rt; refused, Err(ErrorKind::OutOfMemory));
    assert_eq!(rt; little.as_str(), "xabcd");
    let mut rest = String::new(rt.alloc());
    assert_eq!(rt;
        value(&rt, &mut read_line(&mut reader, &mut rest))?,
        Ok(8000)
    );
    assert_eq!(rt; rest.as_bytes(), long.as_slice());
    Ok(())
}

#[test]
fn a_refusal_loses_nothing(rt: HostRuntime) -> Result<(), Fail> {
    let bump = Bump::new(rt.alloc());
    bump.set_allocation_limit(Some(4096));
    let mut marks = Marks::new(rt.alloc());
    marks.chunk(vec![in rt.alloc(); b'e'; 8000]?.as_slice())?;
    let mut little: String<&Bump<Global>> = String::new(&bump);
    let refused = value(&rt, &mut read_to_string(&mut marks, &mut little))?;
    assert_eq!(rt; refused, Err(ErrorKind::OutOfMemory));
    if little.is_empty() {
        return Err(Fail::from("no memory for a first piece"));
    }
    let left = 8000_usize.saturating_sub(little.len());
    let mut rest = String::new(rt.alloc());
    assert_eq!(rt;
        value(&rt, &mut read_to_string(&mut marks, &mut rest))?,
        Ok(left)
    );
    assert_eq!(rt; rest.len(), left);
    Ok(())
}
