//! The words of a case, taken one after the other.
use crate::heard::Counts;
use futures_lite::Poll;
use std::alloc::{AllocError, Global};

/// Why a case has no answers.
#[derive(Clone, Copy, Debug, PartialEq, Eq)]
pub(crate) enum Fault {
    /// The words are no case.
    Words,
    /// Memory was refused.
    Memory,
}

impl From<AllocError> for Fault {
    fn from(_refused: AllocError) -> Fault {
        Fault::Memory
    }
}

impl<T: Drop> From<std::alloc::AllocFailed<T>> for Fault {
    fn from(_refused: std::alloc::AllocFailed<T>) -> Fault {
        Fault::Memory
    }
}

/// The words of a case that are left.
#[derive(Drop)]
pub(crate) struct Words<'a> {
    pub(crate) words: &'a [&'a str],
    /// How often each script is polled, where the mode tells it.
    pub(crate) counts: Option<Counts>,
    /// Whether the futures and streams that a nest holds wake nothing where they are pending.
    pub(crate) is_quiet: bool,
}

impl<'a> Words<'a> {
    /// The next word, which is left there, or an empty one.
    pub(crate) fn first(&self) -> &'a str {
        match self.words {
            [first, ..] => first,
            [] => "",
        }
    }

    /// The next word.
    pub(crate) fn take(&mut self) -> Result<&'a str, Fault> {
        match self.words {
            [first, rest @ ..] => {
                self.words = rest;
                Ok(first)
            }
            [] => Err(Fault::Words),
        }
    }

    pub(crate) fn number(&mut self) -> Result<usize, Fault> {
        match self.take()?.parse::<usize>() {
            Ok(n) => Ok(n),
            Err(_) => Err(Fault::Words),
        }
    }

    /// The next word, and an empty one of `-`.
    pub(crate) fn part(&mut self) -> Result<&'a str, Fault> {
        let word = self.take()?;
        if word == "-" { Ok("") } else { Ok(word) }
    }

    pub(crate) fn signed(&mut self) -> Result<i64, Fault> {
        match self.take()?.parse::<i64>() {
            Ok(n) => Ok(n),
            Err(_) => Err(Fault::Words),
        }
    }
}

/// The answers of `S:1,P,2,E`, without the `S:`; none of the empty text.
pub(crate) fn answers_of(alloc: Global, word: &str) -> Result<Vec<Poll<Option<i64>>>, Fault> {
    let mut answers = Vec::new(alloc);
    if word.is_empty() {
        return Ok(answers);
    }
    for piece in word.split(',') {
        let answer = match piece {
            "P" => Poll::Pending,
            "E" => Poll::Ready(None),
            _ => match piece.parse::<i64>() {
                Ok(n) => Poll::Ready(Some(n)),
                Err(_) => return Err(Fault::Words),
            },
        };
        answers.push(answer)?;
    }
    Ok(answers)
}

/// The numbers of `1,2,3`.
pub(crate) fn numbers_of(alloc: Global, word: &str) -> Result<Vec<i64>, Fault> {
    let mut numbers = Vec::new(alloc);
    if word.is_empty() {
        return Ok(numbers);
    }
    for piece in word.split(',') {
        match piece.parse::<i64>() {
            Ok(n) => numbers.push(n)?,
            Err(_) => return Err(Fault::Words),
        }
    }
    Ok(numbers)
}
