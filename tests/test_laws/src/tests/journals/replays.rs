//! Journals of streams whose clones equal their originals have no entries at first.
use futures_lite::io::{Cursor, Journal};
use lite_mock::Marks;
use std::test::Fail;
use theorems_at_types::{Plain, entries_of_cursor, entries_of_marks};

#[test]
fn journals_are_runs_from_their_starts(rt: HostRuntime) -> Result<(), Fail> {
    let bytes = Vec::from_slice(rt.alloc(), b"xy")?;
    let Ok(journal) = Journal::new(rt.alloc(), Cursor::new(Plain { bytes })) else {
        return Err(Fail::from("memory"));
    };
    assert_eq!(rt; entries_of_cursor(&journal), 0);
    let Ok(journal) = Journal::new(rt.alloc(), Marks::new(rt.alloc())) else {
        return Err(Fail::from("memory"));
    };
    assert_eq!(rt; entries_of_marks(&journal), 0);
    Ok(())
}
