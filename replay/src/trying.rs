//! Futures that are lent their stream and stop at an error. What is left of the stream is polled after the value.
use crate::answers::Answers;
use crate::closures::{folded, ok_of};
use crate::words::{Fault, Words};
use futures_lite::stream::Counted;
use futures_lite::{Context, StreamExt};
use std::alloc::AllocError;

type Judge = fn(i64) -> Result<i64, i64>;

/// A future that an error stops, with what judges the items.
#[derive(Clone, Copy)]
pub(crate) enum Trial {
    ForEach(Judge),
    Fold(Judge),
    Next(Judge),
}

impl Trial {
    /// The future of this name.
    pub(crate) fn of(mode: &str, words: &mut Words<'_>) -> Result<Option<Trial>, Fault> {
        let trial = match mode {
            "try_for_each" => Trial::ForEach(ok_of(words.number()?)?),
            "try_fold" => Trial::Fold(ok_of(words.number()?)?),
            "try_next" => Trial::Next(ok_of(words.number()?)?),
            _ => return Ok(None),
        };
        Ok(Some(trial))
    }

    pub(crate) fn answered<S: Counted<Item = i64> + Drop>(
        self,
        nest: S,
        cx: &mut Context<'_>,
        answers: &mut Answers,
    ) -> Result<(), Fault> {
        match self {
            Trial::ForEach(f) => for_each(nest, f, cx, answers)?,
            Trial::Fold(f) => fold(nest, f, cx, answers)?,
            Trial::Next(f) => next(nest, f, cx, answers)?,
        }
        Ok(())
    }
}

/// An error is printed 1,000,000 above its number, where it is an item of a stream.
pub(crate) fn either(x: Result<i64, i64>) -> i64 {
    match x {
        Ok(x) => x,
        Err(e) => e.wrapping_add(1_000_000),
    }
}

fn for_each<S: Counted<Item = i64> + Drop>(
    mut nest: S,
    f: Judge,
    cx: &mut Context<'_>,
    answers: &mut Answers,
) -> Result<(), AllocError> {
    let mut sum = 1i64;
    {
        let mut future = nest.try_for_each(|x| match f(x) {
            Ok(x) => {
                sum = folded(sum, x);
                Ok(())
            }
            Err(e) => Err(e),
        });
        match answers.finish(&mut future, cx)? {
            Some(Ok(())) => answers.word("ok")?,
            Some(Err(e)) => answers.failed(e)?,
            None => {}
        }
    }
    answers.number(sum)?;
    answers.drive(&mut nest, cx)
}

/// The function that folds fails at 4.
fn fold<S: Counted<Item = i64> + Drop>(
    nest: S,
    f: Judge,
    cx: &mut Context<'_>,
    answers: &mut Answers,
) -> Result<(), AllocError> {
    let mut nest = nest.map(f);
    let mut future = nest.try_fold(
        7i64,
        |sum, x| if x == 4 { Err(44) } else { Ok(folded(sum, x)) },
    );
    match answers.finish(&mut future, cx)? {
        Some(Ok(x)) => answers.number(x)?,
        Some(Err(e)) => answers.failed(e)?,
        None => {}
    }
    answers.drive(&mut nest.map(either), cx)
}

fn next<S: Counted<Item = i64> + Drop>(
    nest: S,
    f: Judge,
    cx: &mut Context<'_>,
    answers: &mut Answers,
) -> Result<(), AllocError> {
    let mut nest = nest.map(f);
    while answers.polls > 0 {
        match answers.finish(&mut nest.try_next(), cx)? {
            Some(Ok(item)) => answers.option(item)?,
            Some(Err(e)) => answers.failed(e)?,
            None => {}
        }
    }
    Ok(())
}
