//! The sources.
ghost use Rattle.futures_lite.specs.Own.{AnyAnswers, NoHint, anything_stream};

use crate::bursts::{Bell, Later, TryStep, UnfoldStep};
use crate::closures::{ToStep, ToTryStep, later, to_step, to_try_step};
use crate::heard::Heard;
use crate::trying::either;
use crate::words::{Fault, Words, answers_of, numbers_of};
use futures_lite::stream::{
    self, Chain, Cloned, Copied, Counted, Cycle, Empty, Iter, Once, OnceFuture, Pending, Repeat,
    RepeatWith, Script, Take, TryUnfold, Unfold,
};
use futures_lite::{Context, Poll, Stream, StreamExt};
use std::alloc::{AllocError, Global};
use std::slice;
use std::vec::IntoIter;

/// What a nest is made from, by the words.
pub(crate) trait Build: Sized {
    fn build(alloc: Global, words: &mut Words<'_>) -> Result<Self, Fault>;
}

const TABLE: &[i64; 5] = &[4, 7, 0, 9, 2];

fn eleven() -> i64 {
    11
}

/// A source.
#[derive(Drop)]
pub(crate) enum Leaf {
    Script(Script<i64>),
    Heard(Heard),
    Bell(Bell<Script<i64>>),
    Iter(Iter<IntoIter<i64>>),
    Once(Once<i64>),
    Empty(Empty<i64>),
    Pending(Pending<i64>),
    OnceFuture(OnceFuture<Later>),
    Repeat(Take<Repeat<i64>>),
    Repeats(Repeat<i64>),
    Cycle(Take<Cycle<Script<i64>>>),
    CycleTake(Take<Cycle<Take<Script<i64>>>>),
    CycleBell(Take<Cycle<Bell<Script<i64>>>>),
    CycleChain(Take<Cycle<Chain<Script<i64>, Script<i64>>>>),
    RepeatWith(Take<RepeatWith<fn() -> i64>>),
    RepeatsWith(RepeatWith<fn() -> i64>),
    TryUnfold(TryUnfold<i64, ToTryStep, TryStep>),
    Copied(Copied<Iter<slice::Iter<'static, i64>>>),
    Cloned(Cloned<Iter<slice::Iter<'static, i64>>>),
    Unfold(Unfold<i64, ToStep, UnfoldStep>),
}

fn opened(answer: Poll<Option<Result<i64, AllocError>>>) -> Poll<Option<i64>> {
    match answer {
        Poll::Pending => Poll::Pending,
        Poll::Ready(None) => Poll::Ready(None),
        Poll::Ready(Some(Ok(x))) => Poll::Ready(Some(x)),
        Poll::Ready(Some(Err(_))) => Poll::Ready(Some(-999_999)),
    }
}

impl Stream for Leaf {
    type Item = i64;

    ghost run = { AnyAnswers };

    ghost hints = { NoHint };

    ghost laws = { anything_stream };

    fn poll_next(&mut self, cx: &mut Context<'_>) -> Poll<Option<i64>> {
        match self {
            Leaf::Script(s) => s.poll_next(cx),
            Leaf::Heard(s) => s.poll_next(cx),
            Leaf::Bell(s) => s.poll_next(cx),
            Leaf::Iter(s) => s.poll_next(cx),
            Leaf::Once(s) => s.poll_next(cx),
            Leaf::Empty(s) => s.poll_next(cx),
            Leaf::Pending(s) => s.poll_next(cx),
            Leaf::OnceFuture(s) => s.poll_next(cx),
            Leaf::Repeat(s) => opened(s.poll_next(cx)),
            Leaf::Repeats(s) => opened(s.poll_next(cx)),
            Leaf::Cycle(s) => opened(s.poll_next(cx)),
            Leaf::CycleTake(s) => opened(s.poll_next(cx)),
            Leaf::CycleBell(s) => opened(s.poll_next(cx)),
            Leaf::CycleChain(s) => opened(s.poll_next(cx)),
            Leaf::RepeatWith(s) => s.poll_next(cx),
            Leaf::RepeatsWith(s) => s.poll_next(cx),
            Leaf::TryUnfold(s) => match s.poll_next(cx) {
                Poll::Ready(Some(tried)) => Poll::Ready(Some(either(tried))),
                Poll::Ready(None) => Poll::Ready(None),
                Poll::Pending => Poll::Pending,
            },
            Leaf::Copied(s) => s.poll_next(cx),
            Leaf::Cloned(s) => opened(s.poll_next(cx)),
            Leaf::Unfold(s) => s.poll_next(cx),
        }
    }

    fn size_hint(&self) -> (usize, Option<usize>) {
        match self {
            Leaf::Script(s) => s.size_hint(),
            Leaf::Heard(s) => s.size_hint(),
            Leaf::Bell(s) => s.size_hint(),
            Leaf::Iter(s) => s.size_hint(),
            Leaf::Once(s) => s.size_hint(),
            Leaf::Empty(s) => s.size_hint(),
            Leaf::Pending(s) => s.size_hint(),
            Leaf::OnceFuture(s) => s.size_hint(),
            Leaf::Repeat(s) => s.size_hint(),
            Leaf::Repeats(s) => s.size_hint(),
            Leaf::Cycle(s) => s.size_hint(),
            Leaf::CycleTake(s) => s.size_hint(),
            Leaf::CycleBell(s) => s.size_hint(),
            Leaf::CycleChain(s) => s.size_hint(),
            Leaf::RepeatWith(s) => s.size_hint(),
            Leaf::RepeatsWith(s) => s.size_hint(),
            Leaf::TryUnfold(s) => s.size_hint(),
            Leaf::Copied(s) => s.size_hint(),
            Leaf::Cloned(s) => s.size_hint(),
            Leaf::Unfold(s) => s.size_hint(),
        }
    }
}

impl Counted for Leaf {
    ghost ranks = { ? };

    ghost counting = { ? };
}

fn script_of(alloc: Global, words: &mut Words<'_>) -> Result<Script<i64>, Fault> {
    let word = words.take()?;
    match word.strip_prefix("S:") {
        Some(rest) => Ok(stream::script(answers_of(alloc, rest)?)),
        None => Err(Fault::Words),
    }
}

impl Build for Leaf {
    fn build(alloc: Global, words: &mut Words<'_>) -> Result<Leaf, Fault> {
        if words.first().starts_with("S:") {
            let script = script_of(alloc, words)?;
            return Ok(match &mut words.counts {
                Some(counts) => Leaf::Heard(counts.heard(script)?),
                None => Leaf::Script(script),
            });
        }
        let word = words.take()?;
        if let Some(numbers) = word.strip_prefix("I:") {
            return Ok(Leaf::Iter(stream::iter(numbers_of(alloc, numbers)?)));
        }
        if let Some(leaf) = by_function(word, alloc, words)? {
            return Ok(leaf);
        }
        if let Some(leaf) = again(word, alloc, words)? {
            return Ok(leaf);
        }
        match word {
            "bell" => Ok(Leaf::Bell(Bell {
                inner: script_of(alloc, words)?,
            })),
            "once" => Ok(Leaf::Once(stream::once(words.signed()?))),
            "empty" => Ok(Leaf::Empty(stream::empty())),
            "pending" => Ok(Leaf::Pending(stream::pending())),
            "copied" => Ok(Leaf::Copied(table(words.number()?).copied())),
            "cloned" => Ok(Leaf::Cloned(table(words.number()?).cloned())),
            _ => Err(Fault::Words),
        }
    }
}

/// The first numbers of the table, at most so many.
fn table(most: usize) -> Iter<slice::Iter<'static, i64>> {
    stream::iter(TABLE[..most.min(5)].iter())
}

/// The sources that call a function or hold a future.
fn by_function(word: &str, alloc: Global, words: &mut Words<'_>) -> Result<Option<Leaf>, Fault> {
    let to_eleven: fn() -> i64 = eleven;
    let leaf = match word {
        "oncefuture" => {
            let future = later(words.signed()?, words.is_quiet);
            Leaf::OnceFuture(stream::once_future(future))
        }
        "repeat_with" => Leaf::RepeatWith(stream::repeat_with(to_eleven).take(words.number()?)),
        "repeats_with" => Leaf::RepeatsWith(stream::repeat_with(to_eleven)),
        "unfold" => {
            let f = to_step(alloc, words.is_quiet)?;
            Leaf::Unfold(stream::unfold(words.signed()?, f))
        }
        "try_unfold" => {
            let f = to_try_step(alloc, words.is_quiet)?;
            Leaf::TryUnfold(stream::try_unfold(words.signed()?, f))
        }
        _ => return Ok(None),
    };
    Ok(Some(leaf))
}

/// The sources that give the same again and again.
fn again(word: &str, alloc: Global, words: &mut Words<'_>) -> Result<Option<Leaf>, Fault> {
    let leaf = match word {
        "repeats" => Leaf::Repeats(stream::repeat(words.signed()?)),
        "repeat" => {
            let n = words.number()?;
            Leaf::Repeat(stream::repeat(words.signed()?).take(n))
        }
        "cycle" => {
            let n = words.number()?;
            Leaf::Cycle(cycle_of(script_of(alloc, words)?)?.take(n))
        }
        "cycletake" => {
            let n = words.number()?;
            let most = words.number()?;
            Leaf::CycleTake(cycle_of(script_of(alloc, words)?.take(most))?.take(n))
        }
        "cyclebell" => {
            let n = words.number()?;
            let bell = Bell {
                inner: script_of(alloc, words)?,
            };
            Leaf::CycleBell(cycle_of(bell)?.take(n))
        }
        "cyclechain" => {
            let n = words.number()?;
            let first = script_of(alloc, words)?;
            let second = script_of(alloc, words)?;
            Leaf::CycleChain(cycle_of(first.chain(second))?.take(n))
        }
        _ => return Ok(None),
    };
    Ok(Some(leaf))
}

fn cycle_of<S: Stream + Clone + Drop>(stream: S) -> Result<Cycle<S>, Fault> {
    match stream.cycle() {
        Ok(round) => Ok(round),
        Err(_) => Err(Fault::Memory),
    }
}
