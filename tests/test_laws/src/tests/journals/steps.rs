use super::journal::journal_of_chunk;
use futures::task::{Doorbell, Solo};
use futures_lite::Poll;
use futures_lite::io::{self, Answer, ErrorKind, Journal};
use lite_halves::{buffer_answer, done_answer, write_answer};
use lite_mock::{Order, Takes};
use std::alloc::{AllocError, AllocGlobal};
use std::process::Abort;
use std::random::RandomSource;
use std::test::Fail;
use test_support::{by_kind, got};

/// Asserts that a read by `step_read` is one entry and answers as the reader does.
fn assert_read_step<R>(rt: R) -> Result<(), Fail>
where
    R: Abort + RandomSource + AllocGlobal + Copy,
{
    let mut reading = journal_of_chunk(rt.alloc())?;
    let solo = Solo::new(&rt, Doorbell::spinning())?;
    let mut cx = solo.begin();
    let mut buf = [0u8];
    let read = reading.step_read(&mut cx, &mut buf);
    cx.cancel();
    assert_eq!(rt; by_kind(read.ok_or(AllocError)?), Poll::Ready(Ok(1)));
    assert_eq!(rt; (buf[0], reading.entries().len()), (b'x', 1));
    Ok(())
}

/// Asserts that a write by a step was told of the writer's own want of memory.
fn assert_refused<R: Abort + Copy>(
    rt: R,
    step: Option<Poll<io::Result<usize>>>,
) -> Result<(), Fail> {
    let polled = step.ok_or(AllocError)?;
    assert_eq!(rt;
        write_answer(&polled),
        Answer::Fault(ErrorKind::OutOfMemory)
    );
    assert_eq!(rt; by_kind(polled), Poll::Ready(Err(ErrorKind::OutOfMemory)));
    Ok(())
}

/// Asserts that a flush or a close by a step is done.
fn assert_done<R: Abort + Copy>(rt: R, step: Option<Poll<io::Result<()>>>) -> Result<(), Fail> {
    assert_eq!(rt; done_answer(&step.ok_or(AllocError)?), Answer::Done);
    Ok(())
}

/// Asserts that each writing call by a step is one entry and answers as the writer does.
fn assert_write_steps<R>(rt: R) -> Result<(), Fail>
where
    R: Abort + RandomSource + AllocGlobal + Copy,
{
    let mut takes = Takes::new(rt.alloc());
    takes.order(Order::Fail(ErrorKind::OutOfMemory))?;
    let Ok(mut writing) = Journal::new(rt.alloc(), takes) else {
        return Err(Fail::from("memory"));
    };
    let solo = Solo::new(&rt, Doorbell::spinning())?;
    let mut cx = solo.begin();
    let failed = writing.step_write(&mut cx, b"ab");
    let flushed = writing.step_flush(&mut cx);
    let closed = writing.step_close(&mut cx);
    cx.cancel();
    assert_refused(rt, failed)?;
    assert_done(rt, flushed)?;
    assert_done(rt, closed)?;
    assert_eq!(rt; writing.entries().len(), 3);
    Ok(())
}

#[test]
fn a_step_answers_as_the_stream_does(rt: HostRuntime) -> Result<(), Fail> {
    assert_read_step(rt)?;
    assert_write_steps(rt)?;
    let room = Vec::from_slice(rt.alloc(), b"xy")?;
    assert_eq!(rt;
        buffer_answer(&Poll::Ready(Ok(1)), room),
        got(rt.alloc(), b"x")?
    );
    Ok(())
}
