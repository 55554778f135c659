//! Modes that poll a stream.
use crate::answers::Answers;
use crate::bursts::Later;
use crate::words::{Fault, Words};
use futures_lite::stream::{self, Counted};
use futures_lite::{Context, Stream, StreamExt};
use std::alloc::AllocError;

/// How a stream is polled.
#[derive(Drop)]
pub(crate) enum Polling {
    /// As it is.
    Plain,
    /// By what is lent of it.
    Lent,
    /// By a function that polls it.
    ByFunction,
    /// With its hint before the polls and after each.
    WithHints,
    /// With an end in the place of each pending.
    Drained,
    /// By one future after another, each of one item.
    ByNext,
    /// Until this future has its value; then what the stopped stream holds is told.
    Stopped(Later),
    /// The same, but the future is taken out before the polls.
    Released(Later),
}

impl Polling {
    /// The way of this name.
    pub(crate) fn of(mode: &str, words: &mut Words<'_>) -> Result<Option<Polling>, Fault> {
        let polling = match mode {
            "poll" => Polling::Plain,
            "lent" => Polling::Lent,
            "poll_fn" => Polling::ByFunction,
            "hint" => Polling::WithHints,
            "drain" => Polling::Drained,
            "next" => Polling::ByNext,
            "stopped" => Polling::Stopped(hundred(words)?),
            "released" => Polling::Released(hundred(words)?),
            _ => return Ok(None),
        };
        Ok(Some(polling))
    }

    pub(crate) fn answered<S: Counted<Item = i64> + Drop>(
        self,
        mut nest: S,
        cx: &mut Context<'_>,
        answers: &mut Answers,
    ) -> Result<(), Fault> {
        match self {
            Polling::Plain => answers.drive(&mut nest, cx)?,
            Polling::Lent => answers.drive(&mut &mut nest, cx)?,
            Polling::ByFunction => answers.drive(&mut stream::poll_fn(|cx| nest.poll_next(cx)), cx)?,
            Polling::WithHints => answers.drive_with_hints(&mut nest, cx)?,
            Polling::Drained => answers.drive(&mut nest.drain(), cx)?,
            Polling::ByNext => {
                while answers.polls > 0 {
                    if let Some(item) = answers.finish(&mut nest.next(), cx)? {
                        answers.option(item)?;
                    }
                }
            }
            Polling::Stopped(future) => stopped(nest, future, false, cx, answers)?,
            Polling::Released(future) => stopped(nest, future, true, cx, answers)?,
        }
        Ok(())
    }
}

/// A future of 100 that is pending so often before it.
fn hundred(words: &mut Words<'_>) -> Result<Later, Fault> {
    Ok(Later {
        left: words.number()?,
        value: 100,
        is_quiet: words.is_quiet,
    })
}

/// Polls a stream that a future stops. It tells whether the future could be taken out, before the polls where
/// `is_released`, and after them; whether the stream is stopped then; and what its result is, twice.
fn stopped<S: Counted<Item = i64> + Drop>(
    nest: S,
    future: Later,
    is_released: bool,
    cx: &mut Context<'_>,
    answers: &mut Answers,
) -> Result<(), AllocError> {
    let mut nest = stream::stop_after_future(nest, future);
    if is_released {
        answers.truth(nest.take_future().is_some())?;
    }
    answers.drive(&mut nest, cx)?;
    answers.truth(nest.is_stopped())?;
    answers.option(nest.take_result())?;
    answers.option(nest.take_result())?;
    answers.truth(nest.take_future().is_some())
}
