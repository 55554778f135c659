//! Generators of the bits that choose which of two is polled first.
use crate::leaf::Build;
use crate::words::{Fault, Words};
use rand_core::Rng;
use rand_core::utils::{self, NextWord};
use std::alloc::Global;

/// The bits of a race.
#[derive(Drop)]
pub(crate) enum Bits {
    /// The generator of fastrand 1.8, wyrand, with the bit turned that chooses.
    Seeded(u64),
    /// These words one after the other, and then their last again and again; of none 0.
    Given { words: Vec<u32>, next: usize },
}

impl Build for Bits {
    /// A seed; or `b` and the bits as they come, as `b011`.
    fn build(alloc: Global, words: &mut Words<'_>) -> Result<Bits, Fault> {
        if !words.first().starts_with("b") {
            return Ok(Bits::Seeded(words.number()? as u64));
        }
        let mut given = Vec::new(alloc);
        for bit in words.take()?.chars().skip(1) {
            match bit {
                '0' => given.push(0u32)?,
                '1' => given.push(1u32)?,
                _ => return Err(Fault::Words),
            }
        }
        Ok(Bits::Given {
            words: given,
            next: 0,
        })
    }
}

fn wyrand(state: &mut u64) -> u32 {
    let s = state.wrapping_add(0xA0761D6478BD642F);
    *state = s;
    let t = (s as u128).wrapping_mul((s ^ 0xE7037ED1A0B428DB) as u128);
    let low = (t % 4_294_967_296) as u32;
    let high = ((t >> 64) % 4_294_967_296) as u32;
    low ^ high ^ 1
}

impl NextWord<u32> for Bits {
    ghost step = { ? };

    fn next_word(&mut self) -> u32 {
        match self {
            Bits::Seeded(state) => wyrand(state),
            Bits::Given { words, next } => {
                let at = *next;
                if at.wrapping_add(1) < words.len() {
                    *next = at.wrapping_add(1);
                }
                match words.as_slice().get(at) {
                    Some(word) => *word,
                    None => 0,
                }
            }
        }
    }
}

impl Rng for Bits {
    ghost stream = { ? };

    fn next_u32(&mut self) -> u32 {
        self.next_word()
    }

    fn next_u64(&mut self) -> u64 {
        utils::next_u64_via_u32(self)
    }

    fn fill_bytes(&mut self, dst: &mut [u8]) {
        utils::fill_bytes_via_u32(self, dst)
    }
}
