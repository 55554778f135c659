mod bytes_both_ways;
mod executors;
mod foreign;
mod futures_both_ways;
mod streams_both_ways;
mod wakes;

use std::alloc::{AllocError, Global};
use std::fmt::Debug;

/// The text of an error, or no text. So a test that asks for a success says what it got in its place.
fn error_of<T, E: Debug>(alloc: Global, told: &Result<T, E>) -> Result<String, AllocError> {
    match told {
        Ok(_) => Ok(String::new(alloc)),
        Err(e) => format!(in alloc; "{e:?}"),
    }
}
