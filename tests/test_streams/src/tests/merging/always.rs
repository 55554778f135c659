ghost use Rattle.rand_core.specs.Steps.{steps_u32, stream_of};

use rand_core::Rng;
use rand_core::utils::{self, NextWord};

/// A generator that gives one word, again and again.
#[derive(Drop)]
pub(super) struct Always {
    pub(super) word: u32,
}

impl NextWord<u32> for Always {
    ghost step = { λ s. (s.word, s) };

    fn next_word(&mut self) -> u32 {
        self.word
    }
}

impl Rng for Always {
    ghost stream = { stream_of (steps_u32 (λ s. (s.word, s))) };

    fn next_u32(&mut self) -> u32 {
        self.next_word()
    }

    fn next_u64(&mut self) -> u64 {
        utils::next_u64_via_u32(self)
    }

    fn fill_bytes(&mut self, dst: &mut [u8]) {
        utils::fill_bytes_via_u32(self, dst)
    }
}
