//! Futures that are lent their stream and stop at an item. What is left of the stream is polled after the value.
use crate::answers::Answers;
use crate::closures::{Part, Test, ValueTest, part_of, predicate_of, value_of};
use crate::words::{Fault, Words};
use futures_lite::stream::Counted;
use futures_lite::{Context, StreamExt};
use std::alloc::{AllocError, Global};

/// A future that looks for an item, with what it is made of.
#[derive(Drop)]
pub(crate) enum Search {
    Nth(usize),
    Find(Test),
    FindMap(Part),
    Position(ValueTest),
    All(ValueTest),
    Any(ValueTest),
}

impl Search {
    /// The future of this name.
    pub(crate) fn of(
        mode: &str,
        alloc: Global,
        words: &mut Words<'_>,
    ) -> Result<Option<Search>, Fault> {
        let search = match mode {
            "nth" => Search::Nth(words.number()?),
            "find" => Search::Find(predicate_of(alloc, words.number()?)?),
            "find_map" => Search::FindMap(part_of(alloc, words.number()?)?),
            "position" => Search::Position(value_of(alloc, words.number()?)?),
            "all" => Search::All(value_of(alloc, words.number()?)?),
            "any" => Search::Any(value_of(alloc, words.number()?)?),
            _ => return Ok(None),
        };
        Ok(Some(search))
    }

    pub(crate) fn answered<S: Counted<Item = i64> + Drop>(
        self,
        mut nest: S,
        cx: &mut Context<'_>,
        answers: &mut Answers,
    ) -> Result<(), Fault> {
        self.searched(&mut nest, cx, answers)?;
        Ok(answers.drive(&mut nest, cx)?)
    }

    fn searched<S: Counted<Item = i64> + Drop>(
        self,
        nest: &mut S,
        cx: &mut Context<'_>,
        answers: &mut Answers,
    ) -> Result<(), AllocError> {
        let found = match self {
            Search::Nth(n) => answers.finish(&mut nest.nth(n), cx)?,
            Search::Find(f) => answers.finish(&mut nest.find(f), cx)?,
            Search::FindMap(f) => answers.finish(&mut nest.find_map(f), cx)?,
            Search::Position(f) => match answers.finish(&mut nest.position(f), cx)? {
                Some(Some(n)) => return answers.size(n),
                Some(None) => Some(None),
                None => None,
            },
            Search::All(f) => match answers.finish(&mut nest.all(f), cx)? {
                Some(holds) => return answers.truth(holds),
                None => None,
            },
            Search::Any(f) => match answers.finish(&mut nest.any(f), cx)? {
                Some(holds) => return answers.truth(holds),
                None => None,
            },
        };
        match found {
            Some(item) => answers.option(item),
            None => Ok(()),
        }
    }
}
