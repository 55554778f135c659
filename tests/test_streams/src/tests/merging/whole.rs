//! A merge loses no item, doubles none and keeps each stream's order: all pairs of short scripts.
ghost use Rattle.std.specs.Prelude.{◌%◌, ◌/◌, nat_lt, if◌then◌else◌};
ghost use Rattle.rand_core.specs.Steps.{steps_u32, stream_of};

use futures_lite::Poll;
use rand_core::Rng;
use rand_core::utils::{self, NextWord};
use std::alloc::{AllocError, Global};
use std::test::Fail;
use test_support::item;
use theorems_at_types::{or_collected, race_collected};

/// The most items of a script, and the most pendings.
const MOST: u32 = 2;
/// Enough polls for each merge of two such scripts.
const POLLS: usize = 16;
/// How many words a race is given. The last is given again and again.
const WORDS: u32 = 8;

/// A generator of words 0 and 1. It gives the bits of a number, lowest first, up to the last before the highest one.
#[derive(Drop)]
struct Bits {
    bits: u32,
}

impl NextWord<u32> for Bits {
    ghost step = { λ s. (s.bits % 2, record { bits = if nat_lt 3 s.bits then s.bits / 2 else s.bits }) };

    fn next_word(&mut self) -> u32 {
        let word = self.bits % 2;
        if self.bits > 3 {
            self.bits /= 2;
        }
        word
    }
}

impl Rng for Bits {
    ghost stream = { stream_of (steps_u32 (λ s. (s.bits % 2, record { bits = if nat_lt 3 s.bits then s.bits / 2 else s.bits }))) };

    fn next_u32(&mut self) -> u32 {
        self.next_word()
    }

    fn next_u64(&mut self) -> u64 {
        utils::next_u64_via_u32(self)
    }

    fn fill_bytes(&mut self, dst: &mut [u8]) {
        utils::fill_bytes_via_u32(self, dst)
    }
}

/// A script in short: its length without the end, and a bit for each place, which is set where an item stands.
#[derive(Clone, Copy)]
struct Short {
    len: u32,
    places: u32,
}

impl Short {
    fn has_item(self, place: u32) -> bool {
        self.places >> place & 1 == 1
    }

    /// The answers: items from `first` up, pendings, and an end.
    fn answers(self, alloc: Global, first: u8) -> Result<Vec<Poll<Option<u8>>>, AllocError> {
        let mut answers = Vec::new(alloc);
        let mut next = first;
        for place in 0..self.len {
            if self.has_item(place) {
                answers.push(item(next))?;
                next += 1;
            } else {
                answers.push(Poll::Pending)?;
            }
        }
        answers.push(Poll::Ready(None))?;
        Ok(answers)
    }

    /// The items, from `first` up.
    fn items(self, alloc: Global, first: u8) -> Result<Vec<u8>, AllocError> {
        (first..first + self.places.count_ones() as u8).collect(alloc)
    }
}

/// All scripts of at most so many items and so many pendings.
fn scripts(alloc: Global) -> Result<Vec<Short>, AllocError> {
    let mut all = Vec::new(alloc);
    for len in 0..2 * MOST + 1 {
        for places in 0..1u32 << len {
            let items = places.count_ones();
            if items <= MOST && len - items <= MOST {
                all.push(Short { len, places })?;
            }
        }
    }
    Ok(all)
}

/// All lists that have both lists in their order and nothing else.
fn interleavings(alloc: Global, first: &[u8], second: &[u8]) -> Result<Vec<Vec<u8>>, AllocError> {
    let mut all = Vec::new(alloc);
    let len = first.len() + second.len();
    for places in 0..1u32 << len as u32 {
        if places.count_ones() as usize == first.len() {
            let (mut left, mut right) = (first.iter(), second.iter());
            let mut one = Vec::new(alloc);
            for place in 0..len as u32 {
                let next = if places >> place & 1 == 1 {
                    left.next()
                } else {
                    right.next()
                };
                if let Some(x) = next {
                    one.push(*x)?;
                }
            }
            all.push(one)?;
        }
    }
    Ok(all)
}

/// Fails where what was collected is none of these lists.
fn stands_among(lists: &[Vec<u8>], collected: Option<Vec<u8>>) -> Result<(), Fail> {
    let Some(got) = collected else {
        return Err(Fail::from("it is still pending, or memory was refused"));
    };
    if lists.iter().any(|list| list.as_slice() == got.as_slice()) {
        return Ok(());
    }
    Err(Fail::from("an item is lost, doubled or out of order"))
}

#[test]
fn an_or_of_short_scripts_is_an_interleaving(rt: HostRuntime) -> Result<(), Fail> {
    let all = scripts(rt.alloc())?;
    assert_eq!(rt; all.len(), 19);
    for first in &all {
        for second in &all {
            let (items, more) = (first.items(rt.alloc(), 1)?, second.items(rt.alloc(), 11)?);
            let lists = interleavings(rt.alloc(), &items, &more)?;
            let (x, y) = (
                first.answers(rt.alloc(), 1)?,
                second.answers(rt.alloc(), 11)?,
            );
            stands_among(&lists, or_collected(&rt, x, y, POLLS)?)?;
        }
    }
    Ok(())
}

#[test]
fn a_race_of_short_scripts_is_an_interleaving_by_any_words(rt: HostRuntime) -> Result<(), Fail> {
    let all = scripts(rt.alloc())?;
    for first in &all {
        for second in &all {
            let (items, more) = (first.items(rt.alloc(), 1)?, second.items(rt.alloc(), 11)?);
            let lists = interleavings(rt.alloc(), &items, &more)?;
            for words in 0..1u32 << WORDS {
                let bits = words + (1 << WORDS);
                let (x, y) = (
                    first.answers(rt.alloc(), 1)?,
                    second.answers(rt.alloc(), 11)?,
                );
                stands_among(&lists, race_collected(&rt, x, y, Bits { bits }, POLLS)?)?;
            }
        }
    }
    Ok(())
}
