//! A case: how many polls it has, its mode, and what is polled.
use crate::answers::Answers;
pub(crate) use crate::answers::finish;
use crate::consuming::Consumer;
use crate::heard::Counts;
use crate::kid::Kid;
use crate::layer::Layer;
use crate::leaf::{Build, Leaf};
use crate::polling::Polling;
use crate::searching::Search;
use crate::trying::Trial;
use crate::words::{Fault, Words};
use crate::{future_nest, io_case, wakes};
use futures::task::Solo;
use futures_lite::{Context, StreamExt};
use std::alloc::{AllocGlobal, Global};
use std::sync::Wait;

/// A stream of at most three adapters, one over the other.
pub(crate) type Nest = Layer<Kid<Layer<Kid<Layer<Kid<Leaf>>>>>>;

/// What is printed of a case. What makes contexts of its own makes them of `solo`, and what waits does so by `rt`.
pub(crate) fn answered<R: Wait + AllocGlobal + Copy + Drop>(
    rt: R,
    alloc: Global,
    cx: &mut Context<'_>,
    solo: &Solo,
    words: &mut Words<'_>,
) -> Result<String, Fault> {
    let polls = words.number()?;
    let mut answers = Answers {
        text: String::new(alloc),
        polls,
    };
    match words.take()? {
        "still" => still(rt, alloc, solo, words, &mut answers)?,
        mode => of_mode(mode, rt, alloc, cx, solo, words, &mut answers)?,
    }
    Ok(answers.text)
}

/// The case behind the word, all of it in a context of its own: a star behind its answers if one of its polls woke the task, and
/// otherwise a dot.
fn still<R: Wait + AllocGlobal + Copy + Drop>(
    rt: R,
    alloc: Global,
    solo: &Solo,
    words: &mut Words<'_>,
    answers: &mut Answers,
) -> Result<(), Fault> {
    words.is_quiet = true;
    let mode = words.take()?;
    let mut own = solo.begin();
    let told = of_mode(mode, rt, alloc, &mut own, solo, words, answers);
    let is_woken = wakes::is_woken(solo, own);
    told?;
    Ok(answers.text.push_str(if is_woken { "*" } else { "." })?)
}

fn of_mode<R: Wait + AllocGlobal + Copy + Drop>(
    mode: &str,
    rt: R,
    alloc: Global,
    cx: &mut Context<'_>,
    solo: &Solo,
    words: &mut Words<'_>,
    answers: &mut Answers,
) -> Result<(), Fault> {
    match mode {
        "io" => return io_case::answered(rt, alloc, cx, words, answers.polls, &mut answers.text),
        "future" => future_nest::answered(alloc, cx, words, answers)?,
        "future_lent" => future_nest::lent(alloc, cx, words, answers)?,
        "future_fn" => future_nest::by_function(alloc, cx, words, answers)?,
        "fused" => future_nest::fused(alloc, cx, words, answers)?,
        "wakes" => wakes::of_stream(alloc, solo, words, answers)?,
        "wakes_future" => wakes::of_future(alloc, solo, words, answers)?,
        "quiet" => {
            words.is_quiet = true;
            wakes::of_stream(alloc, solo, words, answers)?;
        }
        "quiet_future" => {
            words.is_quiet = true;
            wakes::of_future(alloc, solo, words, answers)?;
        }
        "polls" => with_counts(alloc, cx, words, answers)?,
        "rest" => of_lent_nest(alloc, cx, words, answers)?,
        mode => of_nest(mode, alloc, cx, words, answers)?,
    }
    match words.words {
        [] => Ok(()),
        _ => Err(Fault::Words),
    }
}

/// A mode of a nest of streams.
fn of_nest(
    mode: &str,
    alloc: Global,
    cx: &mut Context<'_>,
    words: &mut Words<'_>,
    answers: &mut Answers,
) -> Result<(), Fault> {
    if let Some(polling) = Polling::of(mode, words)? {
        return polling.answered(Nest::build(alloc, words)?, cx, answers);
    }
    if let Some(consumer) = Consumer::of(mode, alloc, words)? {
        return consumer.answered(Nest::build(alloc, words)?, alloc, cx, answers);
    }
    if let Some(search) = Search::of(mode, alloc, words)? {
        return search.answered(Nest::build(alloc, words)?, cx, answers);
    }
    match Trial::of(mode, words)? {
        Some(trial) => trial.answered(Nest::build(alloc, words)?, cx, answers),
        None => Err(Fault::Words),
    }
}

/// Polls a nest or `drain` of it, and tells behind each answer how often each script was polled so far.
fn with_counts(
    alloc: Global,
    cx: &mut Context<'_>,
    words: &mut Words<'_>,
    answers: &mut Answers,
) -> Result<(), Fault> {
    words.counts = Some(Counts::new(alloc)?);
    let is_drained = words.first() == "drain";
    if is_drained {
        words.take()?;
    }
    let mut nest = Nest::build(alloc, words)?;
    let Some(counts) = &words.counts else {
        return Err(Fault::Words);
    };
    if is_drained {
        answers.drive_with_counts(&mut nest.drain(), cx, counts)?;
    } else {
        answers.drive_with_counts(&mut nest, cx, counts)?;
    }
    Ok(())
}

/// A future that takes its stream is lent it, and what is left of the stream is polled after the value.
fn of_lent_nest(
    alloc: Global,
    cx: &mut Context<'_>,
    words: &mut Words<'_>,
    answers: &mut Answers,
) -> Result<(), Fault> {
    let mode = words.take()?;
    let Some(consumer) = Consumer::of(mode, alloc, words)? else {
        return Err(Fault::Words);
    };
    let mut nest = Nest::build(alloc, words)?;
    consumer.answered(&mut nest, alloc, cx, answers)?;
    Ok(answers.drive(&mut nest, cx)?)
}
