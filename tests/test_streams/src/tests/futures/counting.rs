ghost use Rattle.std.specs.Prelude.{◌+◌, ◌%◌, ◌^◌};
ghost use Rattle.rand_core.specs.Steps.{steps_u32, stream_of};

use rand_core::Rng;
use rand_core::utils::{self, NextWord};

/// A generator that counts up: its next word is the number that it holds.
#[derive(Drop)]
pub(super) struct Counting {
    pub(super) next: u32,
}

impl NextWord<u32> for Counting {
    ghost step = { λ s. (s.next, record { next = (s.next + 1) % 2 ^ 32 }) };

    fn next_word(&mut self) -> u32 {
        let word = self.next;
        self.next = word.wrapping_add(1);
        word
    }
}

impl Rng for Counting {
    ghost stream = { stream_of (steps_u32 (λ s. (s.next, record { next = (s.next + 1) % 2 ^ 32 }))) };

    fn next_u32(&mut self) -> u32 {
        self.next_word()
    }

    fn next_u64(&mut self) -> u64 {
        utils::next_u64_via_u32(self)
    }

    fn fill_bytes(&mut self, dst: &mut [u8]) {
        utils::fill_bytes_via_u32(self, dst)
    }
}
