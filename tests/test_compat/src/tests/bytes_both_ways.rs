//! Bytes, ends and errors of readers and writers.
use bytes::BytesMut;
use compat::CompatExt;
use futures::FutureExt as _;
use futures::executor::block_on as block_on_there;
use futures::future::join;
use futures::test::MockTask;
use futures_lite::io::{AsyncWrite, BufReader, BufWriter, IoSlice, copy};
use futures_lite::{AsyncBufReadExt, AsyncReadExt, Poll, StreamExt, future};
use lite_mock::{Marks, Order, Takes};
use std::alloc::AllocError;
use std::io;
use std::io::ErrorKind;
use std::test::Fail;
use test_support::{by_kind, is_done};
use tokio::io::{duplex, read_exact, read_to_end, write_all};

#[test]
fn lines_over_a_duplex(rt: HostRuntime) -> Result<(), Fail> {
    let alloc = rt.alloc();
    let (near, far) = duplex(alloc, 4)?;
    let Ok(reader) = BufReader::new(alloc, near.compat().with_budget(64)) else {
        return Err(AllocError.into());
    };
    let lines = reader
        .lines(alloc)
        .try_collect::<String, io::Error, Vec<String>>(alloc);
    let writing = write_all(far, b"one\nand two\r\n\nlast".as_slice()).map(|written| written.map(
        |_| (),
    ));
    let (lines, written) = future::block_on(&rt, future::zip(lines, writing.compat()))?;
    let lines = lines?;
    written?;
    assert_eq!(rt; lines.len(), 4);
    assert_eq!(rt; lines[1].as_str(), "and two");
    assert_eq!(rt; lines[3].as_str(), "last");
    Ok(())
}

// Three futures: tokio writes, this library copies, tokio reads.
#[test]
fn a_copy_between_two_duplexes(rt: HostRuntime) -> Result<(), Fail> {
    let alloc = rt.alloc();
    let (source, input) = duplex(alloc, 3)?;
    let (output, target) = duplex(alloc, 5)?;
    let mut bytes = BytesMut::new(alloc);
    for n in 0..10_000u32 {
        bytes.extend_from_slice(&[(n % 251) as u8])?;
    }
    let wanted = Vec::from_slice(alloc, bytes.as_slice())?;
    let Ok(copying) = copy(alloc, input.compat().with_budget(100), output.compat()) else {
        return Err(AllocError.into());
    };
    let writing = write_all(source, bytes).map(|written| written.map(|_| ()));
    let reading = read_to_end(target, BytesMut::new(alloc));
    let (written, (copied, read)) = block_on_there(
        &rt,
        join(writing, join(copying.compat(), reading)),
    )?;
    // (an end that fails breaks the pipe of the one before it)
    let (_end, read) = read?;
    assert_eq!(rt; copied?, 10_000);
    written?;
    assert!(rt; read.as_slice() == wanted.as_slice());
    Ok(())
}

#[test]
fn a_buffered_writer_under_the_copy_of_tokio(rt: HostRuntime) -> Result<(), Fail> {
    let alloc = rt.alloc();
    let (near, far) = duplex(alloc, 6)?;
    let Ok(writer) = BufWriter::new(alloc, near.compat()) else {
        return Err(AllocError.into());
    };
    let copying = tokio::io::copy(alloc, b"by tokio, over ours".as_slice(), writer.compat())?;
    let reading = read_to_end(far, BytesMut::new(alloc));
    let (copied, read) = block_on_there(&rt, join(copying.map(|c| c.map(|(n, _, _)| n)), reading))?;
    let (_end, read) = read?;
    assert_eq!(rt; copied?, 19);
    assert_eq!(rt; read.as_slice(), b"by tokio, over ours".as_slice());
    Ok(())
}

// Calls of tokio that own their writer or reader, over those of this library: each hands it back.
#[test]
fn calls_by_value_hand_back_what_they_own(rt: HostRuntime) -> Result<(), Fail> {
    let alloc = rt.alloc();
    let writer = Vec::<u8>::new(alloc).compat();
    let (writer, _text) = block_on_there(&rt, write_all(writer, b"by value".as_slice()))??;
    let written = writer.into_inner();
    assert_eq!(rt; written.as_slice(), b"by value".as_slice());

    let Ok(reader) = BufReader::with_capacity(alloc, 3, written.as_slice()) else {
        return Err(AllocError.into());
    };
    let (reader, read) = block_on_there(&rt, read_exact(reader.compat(), vec![in alloc; 0; 2]?))??;
    assert_eq!(rt; read.as_slice(), b"by".as_slice());
    assert_eq!(rt; reader.get_ref().buffer(), b" ".as_slice());
    Ok(())
}

// What a reader of this library returns, tokio's trait returns: bytes, a `Pending`, an error by its kind, the end.
#[test]
fn each_result_of_a_read_passes(rt: HostRuntime) -> Result<(), Fail> {
    let mut marks = Marks::new(rt.alloc());
    marks.pending()?;
    marks.chunk(b"abc")?;
    marks.fault(ErrorKind::TimedOut)?;
    marks.chunk(b"d")?;
    let mut there = marks.compat();
    let task = MockTask::new(&rt)?;
    let mut buf = [b'-'; 2];
    for wanted in [
        Poll::Pending,
        Poll::Ready(Ok(2)),
        Poll::Ready(Ok(1)),
        Poll::Ready(Err(ErrorKind::TimedOut)),
        Poll::Ready(Ok(1)),
        Poll::Ready(Ok(0)),
    ] {
        let read = task.enter(|cx| tokio::io::AsyncRead::poll_read(&mut there, cx, &mut buf));
        assert_eq!(rt; by_kind(read), wanted);
    }
    assert_eq!(rt; buf, *b"db");
    Ok(())
}

// The same through both traits, so that the reader has this library's again.
#[test]
fn each_result_of_a_read_comes_back(rt: HostRuntime) -> Result<(), Fail> {
    let mut marks = Marks::new(rt.alloc());
    marks.chunk(b"ab")?;
    marks.pending()?;
    marks.fault(ErrorKind::ConnectionReset)?;
    let mut back = marks.compat().compat();
    let task = MockTask::new(&rt)?;
    let mut buf = [b'-'; 8];
    for wanted in [
        Poll::Ready(Ok(2)),
        Poll::Pending,
        Poll::Ready(Err(ErrorKind::ConnectionReset)),
        Poll::Ready(Ok(0)),
    ] {
        let read = task.enter(|cx| futures_lite::AsyncRead::poll_read(&mut back, cx, &mut buf));
        assert_eq!(rt; by_kind(read), wanted);
    }
    assert!(rt; buf.starts_with(b"ab"));
    Ok(())
}

// A lending reader of this library, by the calls of tokio.
#[test]
fn a_buffer_is_shown_and_consumed(rt: HostRuntime) -> Result<(), Fail> {
    let mut there = b"hello".as_slice().compat();
    let task = MockTask::new(&rt)?;
    let filled = task.enter(|cx| tokio::io::AsyncBufRead::poll_fill_buf(&mut there, cx));
    assert!(rt; is_done(filled)?);
    assert_eq!(rt;
        tokio::io::AsyncBufRead::buffer(&there),
        b"hello".as_slice()
    );
    tokio::io::AsyncBufRead::consume(&mut there, 4);
    assert_eq!(rt; tokio::io::AsyncBufRead::buffer(&there), b"o".as_slice());
    Ok(())
}

// What a writer of this library returns, tokio's trait returns, and the way back.
#[test]
fn each_result_of_a_write_passes(rt: HostRuntime) -> Result<(), Fail> {
    let mut takes = Takes::new(rt.alloc());
    for order in [
        Order::AtMost(2),
        Order::Wait,
        Order::Fail(ErrorKind::BrokenPipe),
        Order::AtMost(9),
    ] {
        takes.order(order)?;
    }
    let mut back = takes.compat().compat();
    let task = MockTask::new(&rt)?;
    for wanted in [
        Poll::Ready(Ok(2)),
        Poll::Pending,
        Poll::Ready(Err(ErrorKind::BrokenPipe)),
        Poll::Ready(Ok(3)),
    ] {
        let wrote = task.enter(|cx| back.poll_write(cx, b"abc"));
        assert_eq!(rt; by_kind(wrote), wanted);
    }
    assert_eq!(rt; back.get_ref().get_ref().taken(), b"ababc".as_slice());
    Ok(())
}

// A vector takes all pieces of a vectored write at once; a close reaches the other side as a shutdown.
#[test]
fn vectored_writes_and_closes_pass(rt: HostRuntime) -> Result<(), Fail> {
    let alloc = rt.alloc();
    let (near, far) = duplex(alloc, 16)?;
    let mut near = near.compat();
    let task = MockTask::new(&rt)?;
    let wrote = task.enter(|cx| near.poll_write_vectored(
        cx,
        &[IoSlice::new(b""), IoSlice::new(b"bytes")],
    ));
    assert_eq!(rt; by_kind(wrote), Poll::Ready(Ok(5)));
    assert!(rt; is_done(task.enter(|cx| near.poll_flush(cx)))?);
    assert!(rt; is_done(task.enter(|cx| near.poll_close(cx)))?);
    let (_end, read) = block_on_there(&rt, read_to_end(far, BytesMut::new(alloc)))??;
    assert_eq!(rt; read.as_slice(), b"bytes".as_slice());

    let mut there = Vec::<u8>::new(alloc).compat();
    let wrote = task.enter(|cx| {
        tokio::io::AsyncWrite::poll_write_vectored(
            &mut there,
            cx,
            &[IoSlice::new(b"to"), IoSlice::new(b"kio")],
        )
    });
    assert_eq!(rt; by_kind(wrote), Poll::Ready(Ok(5)));
    assert!(rt; is_done(task.enter(|cx| tokio::io::AsyncWrite::poll_flush(&mut there, cx)))?);
    assert!(rt; is_done(task.enter(|cx| tokio::io::AsyncWrite::poll_shutdown(&mut there, cx)))?);
    assert_eq!(rt; there.get_ref().as_slice(), b"tokio".as_slice());
    Ok(())
}
