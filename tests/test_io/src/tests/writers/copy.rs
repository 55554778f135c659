use super::buf_writer::buffered;
use lite_base::{Future, Poll};
use lite_buffered::{BufWriter, Chain};
use lite_io_base::{AsyncWrite, CountedRead};
use lite_mock::{Marks, Order, Takes};
use lite_theorems::copy_chain;
use lite_write::CopyFuture;
use lite_write::make::copy;
use std::alloc::AllocError;
use std::io;
use std::io::ErrorKind;
use std::test::Fail;
use test_support::{by_kind, polled, reads_byte, write};

/// What a poll of a copy answers, its error named by its kind.
type Copied = Poll<Result<u64, ErrorKind>>;

/// What the polls of a copy answer up to its value, and at most 40 of them.
fn told<F>(rt: &HostRuntime, copying: &mut F) -> Result<Vec<Copied>, Fail>
where
    F: Future<Output = io::Result<u64>>,
    requires { F.can_poll copying.old }
{
    let mut told = Vec::new(rt.alloc());
    for answer in polled(rt, copying, 40)? {
        told.push(by_kind(answer))?;
    }
    Ok(told)
}

/// A copy of two readers to a buffered writer, where there is memory for its buffer.
fn chaining<'a, R, S, W>(
    rt: &HostRuntime,
    first: R,
    second: S,
    writer: &'a mut BufWriter<W>,
) -> Result<CopyFuture<Chain<R, S>, &'a mut BufWriter<W>>, AllocError>
where
    R: CountedRead + Drop,
    S: CountedRead + Drop,
    W: AsyncWrite,
{
    match copy_chain(rt.alloc(), first, second, writer) {
        Ok(copying) => Ok(copying),
        Err(_) => Err(AllocError),
    }
}

#[test]
fn what_was_held_goes_first(rt: HostRuntime) -> Result<(), Fail> {
    let mut takes = Takes::new(rt.alloc());
    takes.order(Order::AtMost(2))?;
    takes.order(Order::Wait)?;
    let mut writer = buffered(&rt, 4, takes)?;
    assert_eq!(rt; write(&rt, &mut writer, b"-")?, Poll::Ready(Ok(1)));
    let first: &[u8] = b"ab";
    let second: &[u8] = b"cd";
    let answers = told(&rt, &mut chaining(&rt, first, second, &mut writer)?)?;
    assert_eq!(rt;
        answers,
        vec![in rt.alloc(); Poll::Pending, Poll::Ready(Ok(4))]?
    );
    assert_eq!(rt; writer.get_ref().taken(), b"-abcd".as_slice());
    assert_eq!(rt; writer.buffer(), b"".as_slice());
    Ok(())
}

#[test]
fn a_long_text_is_copied_whole(rt: HostRuntime) -> Result<(), Fail> {
    let mut text = Vec::with_capacity(rt.alloc(), 1 << 20)?;
    for i in 0u32..1 << 20 {
        text.push((i % 251) as u8)?;
    }
    let mut copied = Vec::new(rt.alloc());
    let Ok(mut copying) = copy(rt.alloc(), text.as_slice(), &mut copied) else {
        return Err(AllocError.into());
    };
    let answers = told(&rt, &mut copying)?;
    drop(copying);
    assert_eq!(rt; answers, vec![in rt.alloc(); Poll::Ready(Ok(1048576))]?);
    assert!(rt; copied == text);
    Ok(())
}

// Memory is refused here where the test is run with allocations that fail.
#[test]
fn a_refused_copy_hands_both_back(rt: HostRuntime) -> Result<(), Fail> {
    let reader: &[u8] = b"ab";
    let writer = Vec::from_slice(rt.alloc(), b"-")?;
    let mut copying = match copy(rt.alloc(), reader, writer) {
        Ok(copying) => copying,
        Err((reader, writer)) => {
            assert_eq!(rt;
                (reader, writer.as_slice()),
                (b"ab".as_slice(), b"-".as_slice())
            );
            let Ok(copying) = copy(rt.alloc(), reader, writer) else {
                return Err(AllocError.into());
            };
            copying
        }
    };
    assert_eq!(rt;
        told(&rt, &mut copying)?,
        vec![in rt.alloc(); Poll::Ready(Ok(2))]?
    );
    Ok(())
}

#[test]
fn a_copy_reads_no_more_after_an_end(rt: HostRuntime) -> Result<(), Fail> {
    let mut marks = Marks::new(rt.alloc());
    marks.chunk(b"a")?;
    marks.end()?;
    marks.chunk(b"b")?;
    let mut takes = Takes::new(rt.alloc());
    takes.order(Order::Wait)?;
    let mut writer = buffered(&rt, 4, takes)?;
    let Ok(mut copying) = copy(rt.alloc(), &mut marks, &mut writer) else {
        return Err(AllocError.into());
    };
    let answers = told(&rt, &mut copying)?;
    drop(copying);
    assert_eq!(rt;
        answers,
        vec![in rt.alloc(); Poll::Pending, Poll::Ready(Ok(1))]?
    );
    assert_eq!(rt; writer.get_ref().taken(), b"a".as_slice());
    assert!(rt; reads_byte(&rt, &mut marks, b'b')?);
    Ok(())
}

/// What a copy of `ab` and `cd` to a buffered writer over a vector answers, each behind a pending or not, and the vector.
fn copied(rt: &HostRuntime, is_late: bool) -> Result<(Vec<Copied>, Vec<u8>), Fail> {
    let mut parts = [Marks::new(rt.alloc()), Marks::new(rt.alloc())];
    for (part, bytes) in parts.iter_mut().zip([b"ab", b"cd"]) {
        if is_late {
            part.pending()?;
        }
        part.chunk(bytes)?;
    }
    let [first, second] = parts;
    let mut writer = buffered(rt, 3, Vec::new(rt.alloc()))?;
    let answers = told(rt, &mut chaining(rt, first, second, &mut writer)?)?;
    Ok((answers, writer.into_inner()))
}

#[test]
fn two_readers_are_copied_to_a_vector_whenever_they_are_ready(rt: HostRuntime) -> Result<(), Fail> {
    let (answers, bytes) = copied(&rt, false)?;
    assert_eq!(rt; answers, vec![in rt.alloc(); Poll::Ready(Ok(4))]?);
    assert_eq!(rt; bytes.as_slice(), b"abcd".as_slice());
    let (answers, bytes) = copied(&rt, true)?;
    let expected = vec![in rt.alloc(); Poll::Pending, Poll::Pending, Poll::Ready(Ok(4))]?;
    assert_eq!(rt; answers, expected);
    assert_eq!(rt; bytes.as_slice(), b"abcd".as_slice());
    Ok(())
}
