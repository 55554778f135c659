//! A nest on the heap, of streams or of futures.
ghost use Rattle.futures_lite.specs.Own.{AnyAnswers, AnyValue, NoHint, anything_future, anything_stream};

use crate::leaf::Build;
use crate::words::{Fault, Words};
use futures_lite::stream::Counted;
use futures_lite::{Context, Future, Poll, Stream};
use std::alloc::Global;

#[derive(Drop)]
pub(crate) struct Kid<S: Drop> {
    nest: Box<S>,
}

impl<S: Counted<Item = i64> + Drop> Stream for Kid<S> {
    type Item = i64;

    ghost run = { AnyAnswers };

    ghost hints = { NoHint };

    ghost laws = { anything_stream };

    fn poll_next(&mut self, cx: &mut Context<'_>) -> Poll<Option<i64>> {
        self.nest.poll_next(cx)
    }

    fn size_hint(&self) -> (usize, Option<usize>) {
        self.nest.size_hint()
    }
}

impl<S: Counted<Item = i64> + Drop> Counted for Kid<S> {
    ghost ranks = { ? };

    ghost counting = { ? };
}

impl<F: Future<Output = i64> + Drop> Future for Kid<F> {
    type Output = i64;

    ghost run = { AnyValue };

    ghost laws = { anything_future };

    fn poll(&mut self, cx: &mut Context<'_>) -> Poll<i64> {
        self.nest.poll(cx)
    }
}

impl<S: Build + Drop> Build for Kid<S> {
    fn build(alloc: Global, words: &mut Words<'_>) -> Result<Kid<S>, Fault> {
        let nest = Box::new(alloc, S::build(alloc, words)?)?;
        Ok(Kid { nest })
    }
}
