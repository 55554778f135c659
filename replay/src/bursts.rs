//! A stream and futures that are given by few numbers, and what wakes its task at each poll.
//! A pending of the first wakes the task, unless they are quiet.
ghost use Rattle.futures_lite.specs.Own.{AnyAnswers, AnyValue, NoHint, anything_future, anything_stream};

use futures_lite::stream::Counted;
use futures_lite::{Context, Future, Poll, Stream};

/// A pending, with a wake unless it is quiet.
fn pause<T>(is_quiet: bool, cx: &mut Context<'_>) -> Poll<T> {
    if is_quiet {
        Poll::Pending
    } else {
        cx.yield_now()
    }
}

/// Gives `left` numbers from `next` on, with a pending where it waits; after a multiple of three it waits.
#[derive(Drop)]
pub(crate) struct Burst {
    pub(crate) left: usize,
    pub(crate) next: i64,
    pub(crate) waits: bool,
    pub(crate) is_quiet: bool,
}

impl Stream for Burst {
    type Item = i64;

    ghost run = { AnyAnswers };

    ghost hints = { NoHint };

    ghost laws = { anything_stream };

    fn poll_next(&mut self, cx: &mut Context<'_>) -> Poll<Option<i64>> {
        if self.waits {
            self.waits = false;
            return pause(self.is_quiet, cx);
        }
        if self.left == 0 {
            return Poll::Ready(None);
        }
        self.left -= 1;
        let item = self.next;
        self.next = item.wrapping_add(1);
        self.waits = self.next % 3 == 0;
        Poll::Ready(Some(item))
    }

    fn size_hint(&self) -> (usize, Option<usize>) {
        (0, None)
    }
}

impl Counted for Burst {
    ghost ranks = { ? };

    ghost counting = { ? };
}

/// Is pending `left` times, and then gives `value`.
#[derive(Drop)]
pub(crate) struct Later {
    pub(crate) left: usize,
    pub(crate) value: i64,
    pub(crate) is_quiet: bool,
}

impl Future for Later {
    type Output = i64;

    ghost run = { AnyValue };

    ghost laws = { anything_future };

    fn poll(&mut self, cx: &mut Context<'_>) -> Poll<i64> {
        if self.left == 0 {
            return Poll::Ready(self.value);
        }
        self.left -= 1;
        pause(self.is_quiet, cx)
    }
}

/// Is pending once where it waits, and then gives `value`.
#[derive(Drop)]
pub(crate) struct UnfoldStep {
    pub(crate) waits: bool,
    pub(crate) value: Option<(i64, i64)>,
    pub(crate) is_quiet: bool,
}

impl Future for UnfoldStep {
    type Output = Option<(i64, i64)>;

    ghost run = { AnyValue };

    ghost laws = { anything_future };

    fn poll(&mut self, cx: &mut Context<'_>) -> Poll<Option<(i64, i64)>> {
        if self.waits {
            self.waits = false;
            return pause(self.is_quiet, cx);
        }
        Poll::Ready(self.value)
    }
}

/// Is pending once where it waits, and then gives `value`.
#[derive(Drop)]
pub(crate) struct TryStep {
    pub(crate) waits: bool,
    pub(crate) value: Result<Option<(i64, i64)>, i64>,
    pub(crate) is_quiet: bool,
}

impl Future for TryStep {
    type Output = Result<Option<(i64, i64)>, i64>;

    ghost run = { AnyValue };

    ghost laws = { anything_future };

    fn poll(&mut self, cx: &mut Context<'_>) -> Poll<Result<Option<(i64, i64)>, i64>> {
        if self.waits {
            self.waits = false;
            return pause(self.is_quiet, cx);
        }
        Poll::Ready(self.value)
    }
}

/// Answers as what is in it, and wakes its task at each poll.
#[derive(Clone, Drop)]
pub(crate) struct Bell<S: Drop> {
    pub(crate) inner: S,
}

impl<S: Counted<Item = i64> + Drop> Stream for Bell<S> {
    type Item = i64;

    ghost run = { AnyAnswers };

    ghost hints = { NoHint };

    ghost laws = { anything_stream };

    fn poll_next(&mut self, cx: &mut Context<'_>) -> Poll<Option<i64>> {
        let _: Poll<()> = cx.yield_now();
        self.inner.poll_next(cx)
    }

    fn size_hint(&self) -> (usize, Option<usize>) {
        self.inner.size_hint()
    }
}

impl<S: Counted<Item = i64> + Drop> Counted for Bell<S> {
    ghost ranks = { ? };

    ghost counting = { ? };
}

impl<F: Future<Output = i64> + Drop> Future for Bell<F> {
    type Output = i64;

    ghost run = { AnyValue };

    ghost laws = { anything_future };

    fn poll(&mut self, cx: &mut Context<'_>) -> Poll<i64> {
        let _: Poll<()> = cx.yield_now();
        self.inner.poll(cx)
    }
}
