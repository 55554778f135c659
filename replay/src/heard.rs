//! Scripts that count their polls.
ghost use Rattle.futures_lite.specs.Own.{AnyAnswers, NoHint, anything_stream};

use futures_lite::stream::{Counted, Script};
use futures_lite::{Context, Poll, Stream};
use std::alloc::{AllocError, Global};
use std::cell::Cell;
use std::rc::Rc;

/// How many bits of the counts are of one script.
const BITS: u32 = 16;

/// How often each script of a case was polled: at most four scripts, below 2^16 polls each.
#[derive(Drop)]
pub(crate) struct Counts {
    polls: Rc<Cell<u64>>,
    scripts: u32,
}

impl Counts {
    pub(crate) fn new(alloc: Global) -> Result<Counts, AllocError> {
        let polls = Rc::new(alloc, Cell::new(0u64))?;
        Ok(Counts { polls, scripts: 0 })
    }

    /// The next script of the case, which counts its polls here.
    pub(crate) fn heard(&mut self, script: Script<i64>) -> Result<Heard, AllocError> {
        let polls = self.polls.clone()?;
        let shift = self.scripts.wrapping_mul(BITS) % u64::BITS;
        self.scripts = self.scripts.wrapping_add(1);
        let one = 1u64.wrapping_shl(shift);
        Ok(Heard { script, polls, one })
    }

    /// The counts, one a script.
    pub(crate) fn each(&self) -> impl Iterator<Item = usize> + Drop {
        let polls = self.polls.get();
        (0..self.scripts).map(move |number: u32| {
            (polls.wrapping_shr(number.wrapping_mul(BITS)) % (1u64 << BITS)) as usize
        })
    }
}

/// A script that counts its polls.
#[derive(Drop)]
pub(crate) struct Heard {
    script: Script<i64>,
    polls: Rc<Cell<u64>>,
    one: u64,
}

impl Stream for Heard {
    type Item = i64;

    ghost run = { AnyAnswers };

    ghost hints = { NoHint };

    ghost laws = { anything_stream };

    fn poll_next(&mut self, cx: &mut Context<'_>) -> Poll<Option<i64>> {
        self.polls.set(self.polls.get().wrapping_add(self.one));
        self.script.poll_next(cx)
    }

    fn size_hint(&self) -> (usize, Option<usize>) {
        self.script.size_hint()
    }
}

impl Counted for Heard {
    ghost ranks = { ? };

    ghost counting = { ? };
}
