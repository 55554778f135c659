//! What is printed of a case.
use crate::heard::Counts;
use futures_lite::{Context, Future, Poll, Stream};
use std::alloc::AllocError;

/// The answers of a case as they are printed, and how many polls it has left.
#[derive(Drop)]
pub(crate) struct Answers {
    pub(crate) text: String,
    pub(crate) polls: usize,
}

impl Answers {
    /// A word, such as the name of a state.
    pub(crate) fn word(&mut self, word: &str) -> Result<(), AllocError> {
        self.text.push_str(word)?;
        self.text.push_str(",")
    }

    pub(crate) fn number(&mut self, x: i64) -> Result<(), AllocError> {
        self.word(itoa::Buffer::new().format(x))
    }

    pub(crate) fn size(&mut self, n: usize) -> Result<(), AllocError> {
        self.word(itoa::Buffer::new().format(n))
    }

    /// A star before the next word, where it holds.
    pub(crate) fn star(&mut self, holds: bool) -> Result<(), AllocError> {
        if holds { self.text.push_str("*") } else { Ok(()) }
    }

    pub(crate) fn truth(&mut self, holds: bool) -> Result<(), AllocError> {
        self.word(if holds { "true" } else { "false" })
    }

    /// An error that holds a number.
    pub(crate) fn failed(&mut self, x: i64) -> Result<(), AllocError> {
        self.text.push_str("!")?;
        self.number(x)
    }

    /// An item, or an end.
    pub(crate) fn option(&mut self, x: Option<i64>) -> Result<(), AllocError> {
        match x {
            Some(x) => self.number(x),
            None => self.word("E"),
        }
    }

    pub(crate) fn list<'a, I>(&mut self, items: I) -> Result<(), AllocError>
    where
        I: Iterator<Item = &'a i64> + Drop,
    {
        self.text.push_str("[")?;
        for x in items {
            self.number(*x)?;
        }
        self.text.push_str("]")
    }

    fn hint<S: Stream>(&mut self, stream: &S) -> Result<(), AllocError> {
        let (low, high) = stream.size_hint();
        self.text.push_str("(")?;
        self.size(low)?;
        match high {
            Some(high) => self.size(high)?,
            None => self.text.push_str("-")?,
        }
        self.text.push_str(")")
    }

    fn polled<S: Stream<Item = i64>>(
        &mut self,
        stream: &mut S,
        cx: &mut Context<'_>,
    ) -> Result<(), AllocError> {
        match stream.poll_next(cx) {
            Poll::Pending => self.word("P"),
            Poll::Ready(item) => self.option(item),
        }
    }

    /// Polls a stream as often as there are polls left.
    pub(crate) fn drive<S: Stream<Item = i64>>(
        &mut self,
        stream: &mut S,
        cx: &mut Context<'_>,
    ) -> Result<(), AllocError> {
        for _ in 0..self.polls {
            self.polled(stream, cx)?;
        }
        Ok(())
    }

    /// Polls a stream as often as there are polls left, with its hint before them and after each.
    pub(crate) fn drive_with_hints<S: Stream<Item = i64>>(
        &mut self,
        stream: &mut S,
        cx: &mut Context<'_>,
    ) -> Result<(), AllocError> {
        self.hint(stream)?;
        for _ in 0..self.polls {
            self.polled(stream, cx)?;
            self.hint(stream)?;
        }
        Ok(())
    }

    /// Polls a stream as often as there are polls left, with the counts of the scripts' polls after each.
    pub(crate) fn drive_with_counts<S: Stream<Item = i64>>(
        &mut self,
        stream: &mut S,
        cx: &mut Context<'_>,
        counts: &Counts,
    ) -> Result<(), AllocError> {
        for _ in 0..self.polls {
            self.polled(stream, cx)?;
            self.text.push_str("(")?;
            for count in counts.each() {
                self.size(count)?;
            }
            self.text.push_str(")")?;
        }
        Ok(())
    }

    /// Polls a future until its value or until there are no polls left.
    pub(crate) fn finish<F: Future<Output: Drop>>(
        &mut self,
        future: &mut F,
        cx: &mut Context<'_>,
    ) -> Result<Option<F::Output>, AllocError> {
        finish(future, &mut self.polls, cx, &mut self.text)
    }
}

/// Polls a future until its value or until there are no polls left.
pub(crate) fn finish<F: Future<Output: Drop>>(
    future: &mut F,
    polls: &mut usize,
    cx: &mut Context<'_>,
    out: &mut String,
) -> Result<Option<F::Output>, AllocError> {
    while *polls > 0 {
        *polls -= 1;
        match future.poll(cx) {
            Poll::Ready(value) => {
                out.push_str("=")?;
                return Ok(Some(value));
            }
            Poll::Pending => out.push_str("P,")?,
        }
    }
    Ok(None)
}
