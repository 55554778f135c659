//! What a line looks like to those who are told it.
ghost use Rattle.std.specs.Prelude.{◌≡◌, ◌++◌, ◌∷◌, [], IfOk};

use bytes::{Bytes, BytesMut};
use std::alloc::{AllocError, Global};

/// Returns `name`, `between` and `text`, and a newline behind them.
pub fn frame(alloc: Global, name: &[u8], between: &[u8], text: &[u8]) -> Result<Bytes, AllocError>
    ensures { IfOk result (λ b. b ≡ name.now ++ between.now ++ text.now ++ 10 ∷ []) }
{
    let mut line = BytesMut::new(alloc);
    line.extend_from_slice(name)?;
    line.extend_from_slice(between)?;
    line.extend_from_slice(text)?;
    line.extend_from_slice(b"\n")?;
    line.freeze().map_err(|_| AllocError)
}
