//! How many connections there are at once.
use std::alloc::AllocError;
use std::sync::Arc;
use std::sync::atomic::{AtomicU64, Ordering};

/// How many connections are served at once.
pub const SEATS: u64 = 4;

/// How many connections, served or refused, are ended at once.
pub const EXITS: u64 = 16;

/// A place among a number of connections. It is given back when it is dropped.
pub struct Seat {
    taken: Arc<AtomicU64>,
}

impl Seat {
    /// Takes one of `count` seats. `None` says that all are taken.
    pub fn take(taken: &Arc<AtomicU64>, count: u64) -> Result<Option<Seat>, AllocError> {
        let seat = Seat {
            taken: Arc::try_clone(taken)?,
        };
        // If all are taken, the drop gives this one back.
        let before = taken.fetch_add(1, Ordering::SeqCst);
        Ok(if before < count { Some(seat) } else { None })
    }
}

impl Drop for Seat {
    fn drop(self) {
        let Seat { taken } = self;
        taken.fetch_sub(1, Ordering::SeqCst);
    }
}
