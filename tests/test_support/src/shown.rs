//! What is shown of a value, beside a text.
use std::alloc::AllocGlobal;
use std::fmt::Debug;
use std::io;

/// Whether this text is what is shown of a value. An error is the system's: no memory for what is shown.
pub fn shows<R, T>(rt: &R, x: &T, text: &str) -> io::Result<bool>
where
    R: AllocGlobal,
    T: Debug,
{
    let shown = format!(in rt.alloc(); "{x:?}")?;
    Ok(shown.as_str() == text)
}
