ghost use Rattle.std.specs.Prelude.{◌≡◌};

use std::alloc::AllocError;
use std::cell::Cell;

/// A text whose clones are refused as long as there are refusals left.
#[derive(Drop)]
pub(super) struct Text {
    pub(super) text: &'static str,
    pub(super) refusals: Cell<u8>,
}

impl Clone for Text {
    ghost is_clone = { λ x y. y ≡ x };

    fn clone(&self) -> Result<Text, AllocError> {
        let left = self.refusals.get();
        if left > 0 {
            self.refusals.set(left - 1);
            return Err(AllocError);
        }
        Ok(Text {
            text: self.text,
            refusals: Cell::new(0),
        })
    }
}
