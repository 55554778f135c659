ghost use Rattle.std.specs.Prelude.{◌≡◌};

use std::alloc::AllocError;
use std::cell::Cell;

/// A number of which one clone is refused: the one before which so many were asked for, of it and of its clones.
#[derive(Drop)]
pub(super) struct Scarce<'a> {
    pub(super) number: u8,
    pub(super) asked: &'a Cell<u8>,
    pub(super) refused: u8,
}

impl<'a> Clone for Scarce<'a> {
    ghost is_clone = { λ x y. y ≡ x };

    fn clone(&self) -> Result<Scarce<'a>, AllocError> {
        let asked = self.asked.get();
        self.asked.set(asked.wrapping_add(1));
        if asked == self.refused {
            return Err(AllocError);
        }
        Ok(Scarce {
            number: self.number,
            asked: self.asked,
            refused: self.refused,
        })
    }
}
