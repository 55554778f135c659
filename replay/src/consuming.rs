//! Futures that take their stream.
use crate::answers::Answers;
use crate::closures::{Test, folded, ok_of, paired, predicate_of};
use crate::words::{Fault, Words};
use futures_lite::stream::{Counted, TryCollectError};
use futures_lite::{Context, StreamExt};
use std::alloc::{AllocError, Global};
use std::collections::{BTreeMap, BTreeSet, VecDeque};

/// A future that takes its stream, with what it is made of.
#[derive(Drop)]
pub(crate) enum Consumer {
    Count,
    Last,
    Fold,
    FoldCalls,
    ForEach,
    ForEachCalls,
    Collect,
    CollectDeque,
    CollectSet,
    CollectMap,
    CollectText,
    Partition(Test),
    Unzip,
    TryCollect(fn(i64) -> Result<i64, i64>),
}

impl Consumer {
    /// The future of this name.
    pub(crate) fn of(
        mode: &str,
        alloc: Global,
        words: &mut Words<'_>,
    ) -> Result<Option<Consumer>, Fault> {
        let consumer = match mode {
            "count" => Consumer::Count,
            "last" => Consumer::Last,
            "fold" => Consumer::Fold,
            "fold_calls" => Consumer::FoldCalls,
            "for_each" => Consumer::ForEach,
            "for_each_calls" => Consumer::ForEachCalls,
            "collect" => Consumer::Collect,
            "collect_deque" => Consumer::CollectDeque,
            "collect_set" => Consumer::CollectSet,
            "collect_map" => Consumer::CollectMap,
            "collect_text" => Consumer::CollectText,
            "partition" => Consumer::Partition(predicate_of(alloc, words.number()?)?),
            "unzip" => Consumer::Unzip,
            "try_collect" => Consumer::TryCollect(ok_of(words.number()?)?),
            _ => return Ok(None),
        };
        Ok(Some(consumer))
    }

    pub(crate) fn answered<S: Counted<Item = i64> + Drop>(
        self,
        nest: S,
        alloc: Global,
        cx: &mut Context<'_>,
        answers: &mut Answers,
    ) -> Result<(), Fault> {
        match self {
            Consumer::Count => {
                if let Some(n) = answers.finish(&mut nest.count(), cx)? {
                    answers.size(n)?;
                }
            }
            Consumer::Last => {
                if let Some(item) = answers.finish(&mut nest.last(), cx)? {
                    answers.option(item)?;
                }
            }
            Consumer::Fold => {
                if let Some(sum) = answers.finish(&mut nest.fold(7i64, folded), cx)? {
                    answers.number(sum)?;
                }
            }
            Consumer::FoldCalls => fold_calls(nest, cx, answers)?,
            Consumer::ForEach => for_each(nest, cx, answers)?,
            Consumer::ForEachCalls => for_each_calls(nest, cx, answers)?,
            Consumer::Collect => collected(nest, alloc, cx, answers)?,
            Consumer::CollectDeque => collected_deque(nest, alloc, cx, answers)?,
            Consumer::CollectSet => collected_set(nest, alloc, cx, answers)?,
            Consumer::CollectMap => collected_map(nest, alloc, cx, answers)?,
            Consumer::CollectText => collected_text(nest, alloc, cx, answers)?,
            Consumer::Partition(f) => partitioned(nest, f, alloc, cx, answers)?,
            Consumer::Unzip => unzipped(nest, alloc, cx, answers)?,
            Consumer::TryCollect(f) => tried(nest, f, alloc, cx, answers)?,
        }
        Ok(())
    }
}

fn for_each<S: Counted<Item = i64> + Drop>(
    nest: S,
    cx: &mut Context<'_>,
    answers: &mut Answers,
) -> Result<(), AllocError> {
    let mut sum = 1i64;
    {
        let mut future = nest.for_each(|x| {
            sum = folded(sum, x);
        });
        if let Some(()) = answers.finish(&mut future, cx)? {
            answers.word("done")?;
        }
    }
    answers.number(sum)
}

/// Folds each item times how many calls there were.
fn fold_calls<S: Counted<Item = i64> + Drop>(
    nest: S,
    cx: &mut Context<'_>,
    answers: &mut Answers,
) -> Result<(), AllocError> {
    let mut calls = 0i64;
    let mut future = nest.fold(7i64, |sum: i64, x: i64| {
        calls = calls.wrapping_add(1);
        folded(sum, x.wrapping_mul(calls))
    });
    match answers.finish(&mut future, cx)? {
        Some(sum) => answers.number(sum),
        None => Ok(()),
    }
}

/// Folds each item times how many calls there were, and tells the sum once all were seen.
fn for_each_calls<S: Counted<Item = i64> + Drop>(
    nest: S,
    cx: &mut Context<'_>,
    answers: &mut Answers,
) -> Result<(), AllocError> {
    let (mut sum, mut calls) = (1i64, 0i64);
    let is_done = {
        let mut future = nest.for_each(|x: i64| {
            calls = calls.wrapping_add(1);
            sum = folded(sum, x.wrapping_mul(calls));
        });
        answers.finish(&mut future, cx)?.is_some()
    };
    if is_done { answers.number(sum) } else { Ok(()) }
}

fn collected<S: Counted<Item = i64> + Drop>(
    nest: S,
    alloc: Global,
    cx: &mut Context<'_>,
    answers: &mut Answers,
) -> Result<(), Fault> {
    match answers.finish(&mut nest.collect::<Vec<i64>>(alloc), cx)? {
        Some(Ok(items)) => Ok(answers.list(items.iter())?),
        Some(Err(_)) => Err(Fault::Memory),
        None => Ok(()),
    }
}

fn collected_deque<S: Counted<Item = i64> + Drop>(
    nest: S,
    alloc: Global,
    cx: &mut Context<'_>,
    answers: &mut Answers,
) -> Result<(), Fault> {
    match answers.finish(&mut nest.collect::<VecDeque<i64>>(alloc), cx)? {
        Some(Ok(items)) => Ok(answers.list(items.iter())?),
        Some(Err(_)) => Err(Fault::Memory),
        None => Ok(()),
    }
}

fn collected_set<S: Counted<Item = i64> + Drop>(
    nest: S,
    alloc: Global,
    cx: &mut Context<'_>,
    answers: &mut Answers,
) -> Result<(), Fault> {
    match answers.finish(&mut nest.collect::<BTreeSet<i64>>(alloc), cx)? {
        Some(Ok(items)) => Ok(answers.list(items.iter())?),
        Some(Err(_)) => Err(Fault::Memory),
        None => Ok(()),
    }
}

/// Collects each item under its last digit.
fn collected_map<S: Counted<Item = i64> + Drop>(
    nest: S,
    alloc: Global,
    cx: &mut Context<'_>,
    answers: &mut Answers,
) -> Result<(), Fault> {
    let digits = nest.map(|x: i64| (x % 10, x));
    match answers.finish(&mut digits.collect::<BTreeMap<i64, i64>>(alloc), cx)? {
        Some(Ok(items)) => {
            for (key, value) in items.iter() {
                answers.list([*key, *value].iter())?;
            }
            Ok(())
        }
        Some(Err(_)) => Err(Fault::Memory),
        None => Ok(()),
    }
}

/// Collects a letter for each item: `a`, `b` and `c` for 0, 1 and 2, and `ä` for the others.
fn collected_text<S: Counted<Item = i64> + Drop>(
    nest: S,
    alloc: Global,
    cx: &mut Context<'_>,
    answers: &mut Answers,
) -> Result<(), Fault> {
    match answers.finish(&mut nest.map(letter).collect::<String>(alloc), cx)? {
        Some(Ok(text)) => Ok(answers.word(text.as_str())?),
        Some(Err(_)) => Err(Fault::Memory),
        None => Ok(()),
    }
}

fn letter(x: i64) -> char {
    match x {
        0 => 'a',
        1 => 'b',
        2 => 'c',
        _ => 'ä',
    }
}

fn partitioned<S: Counted<Item = i64> + Drop>(
    nest: S,
    f: Test,
    alloc: Global,
    cx: &mut Context<'_>,
    answers: &mut Answers,
) -> Result<(), Fault> {
    match answers.finish(&mut nest.partition::<Vec<i64>, _>(alloc, f), cx)? {
        Some(Ok((accepted, others))) => {
            answers.list(accepted.iter())?;
            Ok(answers.list(others.iter())?)
        }
        Some(Err(_)) => Err(Fault::Memory),
        None => Ok(()),
    }
}

/// Parts each item and the number above it.
fn unzipped<S: Counted<Item = i64> + Drop>(
    nest: S,
    alloc: Global,
    cx: &mut Context<'_>,
    answers: &mut Answers,
) -> Result<(), Fault> {
    let mut future = nest
        .map(paired)
        .unzip::<i64, i64, Vec<i64>, Vec<i64>>(alloc);
    match answers.finish(&mut future, cx)? {
        Some(Ok((left, right))) => {
            answers.list(left.iter())?;
            Ok(answers.list(right.iter())?)
        }
        Some(Err(_)) => Err(Fault::Memory),
        None => Ok(()),
    }
}

fn tried<S: Counted<Item = i64> + Drop>(
    nest: S,
    f: fn(i64) -> Result<i64, i64>,
    alloc: Global,
    cx: &mut Context<'_>,
    answers: &mut Answers,
) -> Result<(), Fault> {
    let mut future = nest.map(f).try_collect::<i64, i64, Vec<i64>>(alloc);
    match answers.finish(&mut future, cx)? {
        Some(Ok(items)) => Ok(answers.list(items.iter())?),
        Some(Err(TryCollectError::Source(e))) => Ok(answers.failed(e)?),
        Some(Err(_)) => Err(Fault::Memory),
        None => Ok(()),
    }
}
