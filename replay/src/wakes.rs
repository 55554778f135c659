//! Modes that make each poll in a context of its own, and tell whether it woke its task.
use crate::answers::Answers;
use crate::case::Nest;
use crate::leaf::Build;
use crate::readers::BuildReader;
use crate::words::{Fault, Words};
use crate::{future_nest, readers};
use futures::task::{Solo, Source};
use futures_lite::{AsyncReadExt, Context, Future, Poll, Stream, StreamExt};
use std::alloc::{AllocError, Global};
use std::io;

/// Polls a stream, `drain` of it, `count` of it, or the bytes of a reader; a star stands before the answer of a poll that woke its task.
pub(crate) fn of_stream(
    alloc: Global,
    solo: &Solo,
    words: &mut Words<'_>,
    answers: &mut Answers,
) -> Result<(), Fault> {
    let ahead = words.words;
    match words.take()? {
        "drain" => polled(solo, &mut Nest::build(alloc, words)?.drain(), answers)?,
        "count" => {
            let mut count = Nest::build(alloc, words)?.count();
            if let Some(n) = waited(solo, &mut count, answers)? {
                answers.size(n)?;
            }
        }
        "bytes" => {
            let number: fn(io::Result<u8>) -> i64 = number_of;
            let mut numbers = readers::Nest::build(alloc, words)?.bytes().map(number);
            polled(solo, &mut numbers, answers)?;
        }
        _ => {
            words.words = ahead;
            polled(solo, &mut Nest::build(alloc, words)?, answers)?;
        }
    }
    Ok(())
}

/// A byte as a number; an error is -1.
fn number_of(byte: io::Result<u8>) -> i64 {
    match byte {
        Ok(byte) => byte as i64,
        Err(_) => -1,
    }
}

fn polled<S: Stream<Item = i64>>(
    solo: &Solo,
    stream: &mut S,
    answers: &mut Answers,
) -> Result<(), AllocError> {
    for _ in 0..answers.polls {
        let mut cx = solo.begin();
        let answer = stream.poll_next(&mut cx);
        answers.star(is_woken(solo, cx))?;
        match answer {
            Poll::Pending => answers.word("P")?,
            Poll::Ready(item) => answers.option(item)?,
        }
    }
    Ok(())
}

/// The same of a future, up to its value.
pub(crate) fn of_future(
    alloc: Global,
    solo: &Solo,
    words: &mut Words<'_>,
    answers: &mut Answers,
) -> Result<(), Fault> {
    let mut nest = future_nest::Nest::build(alloc, words)?;
    if let Some(value) = waited(solo, &mut nest, answers)? {
        answers.number(value)?;
    }
    Ok(())
}

/// Polls a future up to its value, which is not printed.
fn waited<F: Future<Output: Drop>>(
    solo: &Solo,
    future: &mut F,
    answers: &mut Answers,
) -> Result<Option<F::Output>, AllocError> {
    for _ in 0..answers.polls {
        let mut cx = solo.begin();
        let answer = future.poll(&mut cx);
        answers.star(is_woken(solo, cx))?;
        match answer {
            Poll::Pending => answers.word("P")?,
            Poll::Ready(value) => return Ok(Some(value)),
        }
    }
    Ok(None)
}

/// Ends the context, and tells whether its task was woken while it stood.
pub(crate) fn is_woken(solo: &Solo, mut cx: Context<'_>) -> bool {
    let source = Source::new();
    let mut slot = None;
    let _: Poll<()> = cx.register(&source, &mut slot);
    cx.park();
    match solo.sleep() {
        Some(asleep) => {
            asleep.end();
            false
        }
        None => true,
    }
}
