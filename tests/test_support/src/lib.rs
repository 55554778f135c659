//! What the tests share.
#![tactic(auto)]

mod calls;
mod compared;
mod entries;
mod polls;
mod refusing;
mod shown;

pub use calls::{
    Answered, by_kind, finishes, is_done, read, reads_byte, seek, told, try_read, try_read_both,
    try_write, try_write_both, write,
};
pub use compared::{gives, lends, try_read_room};
pub use entries::{are, cursor_on, got, journal_on};
pub use lite_mock::polled;
pub use polls::{answers, firm, is_woken, item, ranked};
pub use refusing::Refusing;
pub use shown::shows;
