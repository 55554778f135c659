use std::alloc::{Alloc, AllocError};
use std::io::{self, ErrorKind};
use std::random::RandomSource;
use std::sync::Wait;

/// A runtime that refuses to be cloned and to give random bytes, as if memory were missing.
#[derive(Drop)]
pub struct Refusing<R> {
    /// The runtime behind it.
    pub rt: R,
}

impl<R: Drop> Clone for Refusing<R> {
    ghost is_clone = { λ _ _. ⊥ };

    fn clone(&self) -> Result<Refusing<R>, AllocError> {
        Err(AllocError)
    }
}

impl<R: Wait> Wait for Refusing<R> {}

impl<R> RandomSource for Refusing<R> {
    fn fill_bytes(&self, _buf: &mut [u8]) -> io::Result<()> {
        Err(io::Error::from(ErrorKind::OutOfMemory))
    }
}

impl<R: Alloc> Alloc for Refusing<R> {
    type A = R::A;

    fn alloc(&self) -> R::A {
        self.rt.alloc()
    }
}
