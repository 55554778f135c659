//! Nests of futures, and the modes that poll them.
ghost use Rattle.futures_lite.specs.Own.{AnyValue, anything_future};

use crate::answers::Answers;
use crate::bits::Bits;
use crate::bursts::{Bell, Later};
use crate::closures::{ok_of, pair_of};
use crate::kid::Kid;
use crate::leaf::Build;
use crate::trying::either;
use crate::words::{Fault, Words};
use futures_lite::future::{
    self, PollLimited, Either, Fuse, FutureExt, Or, Pending, PollOnce, Race, Ready, TryZip, YieldNow,
    Zip,
};
use futures_lite::{Context, Future, Poll};
use std::alloc::{AllocError, Global};

/// A future of at most three combinators, one over the other.
pub(crate) type Nest = Combined<Kid<Combined<Kid<Combined<Kid<Plain>>>>>>;

/// Polls a future until its value.
pub(crate) fn answered(
    alloc: Global,
    cx: &mut Context<'_>,
    words: &mut Words<'_>,
    answers: &mut Answers,
) -> Result<(), Fault> {
    Ok(until_value(&mut Nest::build(alloc, words)?, cx, answers)?)
}

/// Polls what is lent of a future until its value.
pub(crate) fn lent(
    alloc: Global,
    cx: &mut Context<'_>,
    words: &mut Words<'_>,
    answers: &mut Answers,
) -> Result<(), Fault> {
    Ok(until_value(&mut &mut Nest::build(alloc, words)?, cx, answers)?)
}

/// Polls a function that polls a future until its value.
pub(crate) fn by_function(
    alloc: Global,
    cx: &mut Context<'_>,
    words: &mut Words<'_>,
    answers: &mut Answers,
) -> Result<(), Fault> {
    let mut nest = Nest::build(alloc, words)?;
    Ok(until_value(&mut future::poll_fn(|cx| nest.poll(cx)), cx, answers)?)
}

fn until_value<F: Future<Output = i64>>(
    future: &mut F,
    cx: &mut Context<'_>,
    answers: &mut Answers,
) -> Result<(), AllocError> {
    match answers.finish(future, cx)? {
        Some(value) => answers.number(value),
        None => Ok(()),
    }
}

/// Polls a fused future, after its value too.
pub(crate) fn fused(
    alloc: Global,
    cx: &mut Context<'_>,
    words: &mut Words<'_>,
    answers: &mut Answers,
) -> Result<(), Fault> {
    let mut fuse = future::fuse(Nest::build(alloc, words)?);
    Ok(drive(&mut fuse, cx, answers)?)
}

fn drive<F: Future<Output = i64>>(
    future: &mut F,
    cx: &mut Context<'_>,
    answers: &mut Answers,
) -> Result<(), AllocError> {
    for _ in 0..answers.polls {
        match future.poll(cx) {
            Poll::Pending => answers.word("P")?,
            Poll::Ready(value) => answers.number(value)?,
        }
    }
    Ok(())
}

/// A future of no other.
#[derive(Drop)]
pub(crate) enum Plain {
    Ready(Ready<i64>),
    Later(Later),
    Bell(Bell<Later>),
    Never(Pending<i64>),
    Yield(YieldNow),
}

impl Future for Plain {
    type Output = i64;

    ghost run = { AnyValue };

    ghost laws = { anything_future };

    fn poll(&mut self, cx: &mut Context<'_>) -> Poll<i64> {
        match self {
            Plain::Ready(f) => f.poll(cx),
            Plain::Later(f) => f.poll(cx),
            Plain::Bell(f) => f.poll(cx),
            Plain::Never(f) => f.poll(cx),
            Plain::Yield(f) => match f.poll(cx) {
                Poll::Ready(()) => Poll::Ready(0),
                Poll::Pending => Poll::Pending,
            },
        }
    }
}

impl Build for Plain {
    fn build(_alloc: Global, words: &mut Words<'_>) -> Result<Plain, Fault> {
        match words.take()? {
            "ready" => Ok(Plain::Ready(future::ready(words.signed()?))),
            "later" => Ok(Plain::Later(later_of(words)?)),
            "bell" => Ok(Plain::Bell(Bell {
                inner: later_of(words)?,
            })),
            "never" => Ok(Plain::Never(future::pending())),
            "yield" => Ok(Plain::Yield(future::yield_now())),
            _ => Err(Fault::Words),
        }
    }
}

fn later_of(words: &mut Words<'_>) -> Result<Later, Fault> {
    let left = words.number()?;
    let value = words.signed()?;
    let is_quiet = words.is_quiet;
    Ok(Later {
        left,
        value,
        is_quiet,
    })
}

/// A future whose value may fail.
#[derive(Drop)]
pub(crate) struct Judged<F: Drop> {
    future: F,
    judge: fn(i64) -> Result<i64, i64>,
}

impl<F: Future<Output = i64> + Drop> Future for Judged<F> {
    type Output = Result<i64, i64>;

    ghost run = { AnyValue };

    ghost laws = { anything_future };

    fn poll(&mut self, cx: &mut Context<'_>) -> Poll<Result<i64, i64>> {
        match self.future.poll(cx) {
            Poll::Ready(x) => Poll::Ready((self.judge)(x)),
            Poll::Pending => Poll::Pending,
        }
    }
}

/// A combinator over futures of one type, or one of them as it is.
#[derive(Drop)]
pub(crate) enum Combined<F: Future<Output = i64> + Drop> {
    Plain(F),
    Or(Or<F, F>),
    Race(Race<F, F, Bits>),
    Zip(Zip<F, F>),
    TryZip(TryZip<Judged<F>, i64, Judged<F>, i64>),
    Fuse(Fuse<F>),
    PollOnce(PollOnce<F>),
    Either(Either<F, F>),
    Budget(PollLimited<F>),
}

impl<F: Future<Output = i64> + Drop> Future for Combined<F> {
    type Output = i64;

    ghost run = { AnyValue };

    ghost laws = { anything_future };

    fn poll(&mut self, cx: &mut Context<'_>) -> Poll<i64> {
        match self {
            Combined::Plain(f) => f.poll(cx),
            Combined::Or(f) => f.poll(cx),
            Combined::Race(f) => f.poll(cx),
            Combined::Zip(f) => match f.poll(cx) {
                Poll::Ready((x, y)) => Poll::Ready(pair_of(x, y)),
                Poll::Pending => Poll::Pending,
            },
            Combined::TryZip(f) => match f.poll(cx) {
                Poll::Ready(Ok((x, y))) => Poll::Ready(pair_of(x, y)),
                Poll::Ready(Err(e)) => Poll::Ready(either(Err(e))),
                Poll::Pending => Poll::Pending,
            },
            Combined::Fuse(f) => f.poll(cx),
            Combined::PollOnce(f) => match f.poll(cx) {
                Poll::Ready(value) => Poll::Ready(value.unwrap_or(-1)),
                Poll::Pending => Poll::Pending,
            },
            Combined::Either(f) => f.poll(cx),
            Combined::Budget(f) => match f.poll(cx) {
                Poll::Ready(value) => Poll::Ready(value.unwrap_or(-2)),
                Poll::Pending => Poll::Pending,
            },
        }
    }
}

impl<F: Build + Future<Output = i64> + Drop> Build for Combined<F> {
    fn build(alloc: Global, words: &mut Words<'_>) -> Result<Combined<F>, Fault> {
        let ahead = words.words;
        match words.take()? {
            "or" => {
                let first = F::build(alloc, words)?;
                Ok(Combined::Or(first.or(F::build(alloc, words)?)))
            }
            "race" => {
                let bits = Bits::build(alloc, words)?;
                let first = F::build(alloc, words)?;
                Ok(Combined::Race(first.race(F::build(alloc, words)?, bits)))
            }
            "zip" => {
                let first = F::build(alloc, words)?;
                Ok(Combined::Zip(future::zip(first, F::build(alloc, words)?)))
            }
            "try_zip" => {
                let judge = ok_of(words.number()?)?;
                let first = Judged {
                    future: F::build(alloc, words)?,
                    judge,
                };
                let second = Judged {
                    future: F::build(alloc, words)?,
                    judge,
                };
                Ok(Combined::TryZip(future::try_zip(first, second)))
            }
            "fuse" => Ok(Combined::Fuse(future::fuse(F::build(alloc, words)?))),
            "poll_once" => Ok(Combined::PollOnce(future::poll_once(F::build(alloc, words)?))),
            "left" => Ok(Combined::Either(Either::Left(F::build(alloc, words)?))),
            "right" => Ok(Combined::Either(Either::Right(F::build(alloc, words)?))),
            "budget" => {
                let n = words.number()?;
                Ok(Combined::Budget(F::build(alloc, words)?.with_poll_limit(n)))
            }
            _ => {
                words.words = ahead;
                Ok(Combined::Plain(F::build(alloc, words)?))
            }
        }
    }
}
