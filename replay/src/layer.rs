//! One adapter over nests that are a layer less deep.
ghost use Rattle.futures_lite.specs.Own.{AnyAnswers, NoHint, anything_stream};

use crate::bits::Bits;
use crate::bursts::{Burst, Later};
use crate::closures::{
    Change, Part, Step, Test, ToBurst, ToLater, map_of, nothing_seen, pair_of, part_of,
    predicate_of, step_of, to_burst, to_later,
};
use crate::leaf::Build;
use crate::words::{Fault, Words};
use futures_lite::stream::{
    self, Budgeted, Chain, Counted, Enumerate, Filter, FilterMap, FlatMap, Flatten, Fuse, Inspect,
    Map, MapWhile, Or, Pending, Race, Scan, Skip, SkipWhile, StepBy, StopAfterFuture, Take,
    TakeWhile, Then, Zip,
};
use futures_lite::{Context, Poll, Stream, StreamExt};
use std::alloc::Global;

/// An adapter over streams of one type, or one of them as it is.
#[derive(Drop)]
pub(crate) enum Layer<S: Counted<Item = i64> + Drop> {
    Plain(S),
    Map(Map<S, Change>),
    Filter(Filter<S, Test>),
    FilterMap(FilterMap<S, Part>),
    Take(Take<S>),
    Skip(Skip<S>),
    StepBy(StepBy<S>),
    TakeWhile(TakeWhile<S, Test>),
    SkipWhile(SkipWhile<S, Test>),
    MapWhile(MapWhile<S, Part>),
    Enumerate(Enumerate<S>),
    Inspect(Inspect<S, fn(&i64)>),
    Flatten(Flatten<Map<S, ToBurst>>),
    FlatMap(FlatMap<S, Burst, ToBurst>),
    Then(Then<S, ToLater, Later>),
    Scan(Scan<S, i64, Step>),
    Fuse(Fuse<S>),
    Budget(Budgeted<S>),
    Chain(Chain<S, S>),
    Zip(Zip<S, S>),
    Or(Or<S, S>),
    OrPending(Or<Fuse<S>, Chain<Fuse<S>, Pending<i64>>>),
    Race(Race<S, S, Bits>),
    RacePending(Race<Chain<Fuse<S>, Pending<i64>>, Chain<Fuse<S>, Pending<i64>>, Bits>),
    StopAfter(StopAfterFuture<S, Later>),
}

/// A pair as one number.
fn of_pairs<A: Drop>(
    answer: Poll<Option<(A, i64)>>,
    number: fn(A, i64) -> i64,
) -> Poll<Option<i64>> {
    match answer {
        Poll::Ready(Some((a, x))) => Poll::Ready(Some(number(a, x))),
        Poll::Ready(None) => Poll::Ready(None),
        Poll::Pending => Poll::Pending,
    }
}

fn numbered(i: usize, x: i64) -> i64 {
    x.wrapping_add((i % 1000) as i64 * 1000)
}

impl<S: Counted<Item = i64> + Drop> Stream for Layer<S> {
    type Item = i64;

    ghost run = { AnyAnswers };

    ghost hints = { NoHint };

    ghost laws = { anything_stream };

    fn poll_next(&mut self, cx: &mut Context<'_>) -> Poll<Option<i64>> {
        match self {
            Layer::Plain(s) => s.poll_next(cx),
            Layer::Map(s) => s.poll_next(cx),
            Layer::Filter(s) => s.poll_next(cx),
            Layer::FilterMap(s) => s.poll_next(cx),
            Layer::Take(s) => s.poll_next(cx),
            Layer::Skip(s) => s.poll_next(cx),
            Layer::StepBy(s) => s.poll_next(cx),
            Layer::TakeWhile(s) => s.poll_next(cx),
            Layer::SkipWhile(s) => s.poll_next(cx),
            Layer::MapWhile(s) => s.poll_next(cx),
            Layer::Enumerate(s) => of_pairs(s.poll_next(cx), numbered),
            Layer::Inspect(s) => s.poll_next(cx),
            Layer::Flatten(s) => s.poll_next(cx),
            Layer::FlatMap(s) => s.poll_next(cx),
            Layer::Then(s) => s.poll_next(cx),
            Layer::Scan(s) => s.poll_next(cx),
            Layer::Fuse(s) => s.poll_next(cx),
            Layer::Budget(s) => s.poll_next(cx),
            Layer::Chain(s) => s.poll_next(cx),
            Layer::Zip(s) => of_pairs(s.poll_next(cx), pair_of),
            Layer::Or(s) => s.poll_next(cx),
            Layer::OrPending(s) => s.poll_next(cx),
            Layer::Race(s) => s.poll_next(cx),
            Layer::RacePending(s) => s.poll_next(cx),
            Layer::StopAfter(s) => s.poll_next(cx),
        }
    }

    fn size_hint(&self) -> (usize, Option<usize>) {
        match self {
            Layer::Plain(s) => s.size_hint(),
            Layer::Map(s) => s.size_hint(),
            Layer::Filter(s) => s.size_hint(),
            Layer::FilterMap(s) => s.size_hint(),
            Layer::Take(s) => s.size_hint(),
            Layer::Skip(s) => s.size_hint(),
            Layer::StepBy(s) => s.size_hint(),
            Layer::TakeWhile(s) => s.size_hint(),
            Layer::SkipWhile(s) => s.size_hint(),
            Layer::MapWhile(s) => s.size_hint(),
            Layer::Enumerate(s) => s.size_hint(),
            Layer::Inspect(s) => s.size_hint(),
            Layer::Flatten(s) => s.size_hint(),
            Layer::FlatMap(s) => s.size_hint(),
            Layer::Then(s) => s.size_hint(),
            Layer::Scan(s) => s.size_hint(),
            Layer::Fuse(s) => s.size_hint(),
            Layer::Budget(s) => s.size_hint(),
            Layer::Chain(s) => s.size_hint(),
            Layer::Zip(s) => s.size_hint(),
            Layer::Or(s) => s.size_hint(),
            Layer::OrPending(s) => s.size_hint(),
            Layer::Race(s) => s.size_hint(),
            Layer::RacePending(s) => s.size_hint(),
            Layer::StopAfter(s) => s.size_hint(),
        }
    }
}

impl<S: Counted<Item = i64> + Drop> Counted for Layer<S> {
    ghost ranks = { ? };

    ghost counting = { ? };
}

impl<S: Build + Counted<Item = i64> + Drop> Build for Layer<S> {
    fn build(alloc: Global, words: &mut Words<'_>) -> Result<Layer<S>, Fault> {
        let ahead = words.words;
        let word = words.take()?;
        if let Some(layer) = by_answers(word, alloc, words)? {
            return Ok(layer);
        }
        if let Some(layer) = by_streams_and_futures(word, alloc, words)? {
            return Ok(layer);
        }
        if let Some(layer) = by_numbers(word, alloc, words)? {
            return Ok(layer);
        }
        if let Some(layer) = of_two(word, alloc, words)? {
            return Ok(layer);
        }
        words.words = ahead;
        Ok(Layer::Plain(S::build(alloc, words)?))
    }
}

/// The adapters whose function answers something of an item.
fn by_answers<S: Build + Counted<Item = i64> + Drop>(
    word: &str,
    alloc: Global,
    words: &mut Words<'_>,
) -> Result<Option<Layer<S>>, Fault> {
    let layer = match word {
        "map" => {
            let f = map_of(alloc, words.number()?)?;
            Layer::Map(S::build(alloc, words)?.map(f))
        }
        "filter" => {
            let f = predicate_of(alloc, words.number()?)?;
            Layer::Filter(S::build(alloc, words)?.filter(f))
        }
        "filter_map" => {
            let f = part_of(alloc, words.number()?)?;
            Layer::FilterMap(S::build(alloc, words)?.filter_map(f))
        }
        "take_while" => {
            let f = predicate_of(alloc, words.number()?)?;
            Layer::TakeWhile(S::build(alloc, words)?.take_while(f))
        }
        "skip_while" => {
            let f = predicate_of(alloc, words.number()?)?;
            Layer::SkipWhile(S::build(alloc, words)?.skip_while(f))
        }
        "map_while" => {
            let f = part_of(alloc, words.number()?)?;
            Layer::MapWhile(S::build(alloc, words)?.map_while(f))
        }
        _ => return Ok(None),
    };
    Ok(Some(layer))
}

/// The adapters whose function makes a stream or a future of an item, keeps a state, or only looks.
fn by_streams_and_futures<S: Build + Counted<Item = i64> + Drop>(
    word: &str,
    alloc: Global,
    words: &mut Words<'_>,
) -> Result<Option<Layer<S>>, Fault> {
    let layer = match word {
        "inspect" => {
            let f: fn(&i64) = nothing_seen;
            Layer::Inspect(S::build(alloc, words)?.inspect(f))
        }
        "flatten" => {
            let f = to_burst(alloc, false, words.is_quiet)?;
            Layer::Flatten(S::build(alloc, words)?.map(f).flatten())
        }
        "flat_map" | "flat_map_calls" => {
            let f = to_burst(alloc, word == "flat_map_calls", words.is_quiet)?;
            Layer::FlatMap(S::build(alloc, words)?.flat_map(f))
        }
        "then" | "then_calls" => {
            let f = to_later(alloc, word == "then_calls", words.is_quiet)?;
            Layer::Then(S::build(alloc, words)?.then(f))
        }
        "scan" => {
            let f = step_of(alloc, words.number()?)?;
            let initial = words.signed()?;
            Layer::Scan(S::build(alloc, words)?.scan(initial, f))
        }
        _ => return Ok(None),
    };
    Ok(Some(layer))
}

/// The adapters without a function.
fn by_numbers<S: Build + Counted<Item = i64> + Drop>(
    word: &str,
    alloc: Global,
    words: &mut Words<'_>,
) -> Result<Option<Layer<S>>, Fault> {
    let layer = match word {
        "take" => {
            let n = words.number()?;
            Layer::Take(S::build(alloc, words)?.take(n))
        }
        "skip" => {
            let n = words.number()?;
            Layer::Skip(S::build(alloc, words)?.skip(n))
        }
        "step_by" => {
            let n = words.number()?;
            if n == 0 {
                return Err(Fault::Words);
            }
            Layer::StepBy(S::build(alloc, words)?.step_by(n))
        }
        "budget" => {
            let n = words.number()?;
            if n == 0 {
                return Err(Fault::Words);
            }
            Layer::Budget(S::build(alloc, words)?.with_budget(n))
        }
        "stop_after" => {
            let left = words.number()?;
            let is_quiet = words.is_quiet;
            let future = Later {
                left,
                value: 0,
                is_quiet,
            };
            Layer::StopAfter(stream::stop_after_future(S::build(alloc, words)?, future))
        }
        "enumerate" => Layer::Enumerate(S::build(alloc, words)?.enumerate()),
        "fuse" => Layer::Fuse(S::build(alloc, words)?.fuse()),
        _ => return Ok(None),
    };
    Ok(Some(layer))
}

/// The adapters of two streams. With `_pending` both are fused and never end, as the original has to have it to lose no item.
fn of_two<S: Build + Counted<Item = i64> + Drop>(
    word: &str,
    alloc: Global,
    words: &mut Words<'_>,
) -> Result<Option<Layer<S>>, Fault> {
    let layer = match word {
        "chain" => {
            let first = S::build(alloc, words)?;
            Layer::Chain(first.chain(S::build(alloc, words)?))
        }
        "zip" => {
            let first = S::build(alloc, words)?;
            Layer::Zip(first.zip(S::build(alloc, words)?))
        }
        "or" => {
            let first = S::build(alloc, words)?;
            Layer::Or(first.or(S::build(alloc, words)?))
        }
        "or_pending" => {
            let first = S::build(alloc, words)?.fuse();
            let second = S::build(alloc, words)?.fuse().chain(stream::pending());
            Layer::OrPending(first.or(second))
        }
        "race" => {
            let bits = Bits::build(alloc, words)?;
            let first = S::build(alloc, words)?;
            Layer::Race(first.race(S::build(alloc, words)?, bits))
        }
        "race_pending" => {
            let bits = Bits::build(alloc, words)?;
            let first = S::build(alloc, words)?.fuse().chain(stream::pending());
            let second = S::build(alloc, words)?.fuse().chain(stream::pending());
            Layer::RacePending(first.race(second, bits))
        }
        _ => return Ok(None),
    };
    Ok(Some(layer))
}
