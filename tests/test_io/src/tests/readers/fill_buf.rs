use futures::task::{Doorbell, Solo};
use futures_lite::io::{self, AsyncBufRead, BufReader, ErrorKind};
use futures_lite::{Context, Future, Poll};
use lite_mock::Marks;
use lite_read::make::fill_buf;
use std::alloc::{AllocError, Global};
use std::test::Fail;

#[test]
fn after_an_error_it_may_be_polled_again(rt: HostRuntime) -> Result<(), Fail> {
    let mut marks = Marks::new(rt.alloc());
    marks.fault(ErrorKind::Other)?;
    marks.chunk(b"ab")?;
    let Ok(mut reader) = BufReader::with_capacity(rt.alloc(), 2, marks) else {
        return Err(AllocError.into());
    };
    let mut future = fill_buf(&mut reader);
    let solo = Solo::new(&rt, Doorbell::spinning())?;
    let mut cx = solo.begin();
    let mut buffer_of = None;
    if let Poll::Ready(Err(_)) = future.poll(&mut cx) {
        buffer_of = match future.poll(&mut cx) {
            Poll::Ready(Ok(bytes)) => Some(bytes == b"ab".as_slice()),
            _ => None,
        };
    }
    cx.cancel();
    assert_eq!(rt; buffer_of, Some(true));
    Ok(())
}

/// The message that comes next: as many bytes as its first byte says, which have to be there at once. `None` is an end.
fn message<R: AsyncBufRead>(
    reader: &mut R,
    cx: &mut Context<'_>,
    alloc: Global,
) -> io::Result<Option<Vec<u8>>> {
    let Poll::Ready(filled) = io::fill(reader, cx) else {
        return Err(ErrorKind::WouldBlock.into());
    };
    filled?;
    let Some(&first) = reader.buffer().first() else {
        return Ok(None);
    };
    let end = first as usize + 1;
    if reader.buffer().len() < end {
        return Err(ErrorKind::UnexpectedEof.into());
    }
    let message = Vec::from_slice(alloc, &reader.buffer()[1..end])?;
    reader.consume(end);
    Ok(Some(message))
}

#[test]
fn messages_are_cut_by_a_fill(rt: HostRuntime) -> Result<(), Fail> {
    let mut reader = b"\x02ab\x00\x03c".as_slice();
    let solo = Solo::new(&rt, Doorbell::spinning())?;
    let mut cx = solo.begin();
    let two = message(&mut reader, &mut cx, rt.alloc());
    let none = message(&mut reader, &mut cx, rt.alloc());
    let cut_off = message(&mut reader, &mut cx, rt.alloc());
    reader.consume(2);
    let end = message(&mut reader, &mut cx, rt.alloc());
    cx.cancel();
    assert!(rt; two?.is_some_and(|bytes| bytes.as_slice() == b"ab".as_slice()));
    assert!(rt; none?.is_some_and(|bytes| bytes.is_empty()));
    assert!(rt; cut_off.is_err_and(|e| e.kind() == ErrorKind::UnexpectedEof));
    assert!(rt; end?.is_none());
    Ok(())
}
