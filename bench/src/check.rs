//! Each case at a small size, beside the number that it has to give.

use crate::bytes::noise;
use crate::case::computed;
use crate::fault::Fault;
use crate::polled::with_item;
use crate::{consuming, merging, streams};
use futures_lite::Context;
use std::alloc::AllocGlobal;
use std::random::RandomSource;
use std::sync::Wait;

/// Cases that no file of theirs checks, their sizes, and the items that they fold.
const FOLDS: &[(&str, u64, &[u64])] = &[
    ("held_next", 4, &[5, 4, 7, 6]),
    ("blocking_next", 4, &[5, 4, 7, 6]),
    ("waits_next", 4, &[5, 4, 7, 6]),
    ("seek", 4, &[1, 2, 3, 4]),
    ("repeat_read", 4, &[20, 21, 22, 23]),
    ("empty_read", 4, &[0, 1, 2, 3]),
];

/// Cases, their sizes, and their numbers: of texts all bytes that are read, of writers all that are written, of futures
/// all values.
const NUMBERS: [(&str, u64, u64); 70] = [
    ("made_noise", 600, 600),
    ("made_numbers", 6, 6),
    ("made_text", 6, 96),
    ("made_lines_8", 6, 48),
    ("made_lines_16", 640, 640),
    ("made_lines_2000", 6, 12000),
    ("lines", 6, 90),
    ("lines", 1_000_000, 15_000_000),
    ("lines_8", 6, 42),
    ("lines_2000", 6, 11994),
    ("wide_lines_8", 6, 42),
    ("wide_lines_2000", 6, 11994),
    ("read_to_string", 640, 640),
    ("read_wide_to_string", 640, 640),
    ("copy", 60000, 60824),
    ("zip_of_eight", 3, 18),
    ("made_values", 6, 120),
    ("made_chunks", 6, 132),
    ("values", 1000, 16000),
    ("values_by_hand", 1000, 16000),
    ("poll_advance", 1000, 16000),
    ("take_body", 1000, 16000),
    ("served_lines", 1000, 16000),
    ("wait_serving", 1000, 16000),
    ("split", 6, 90),
    ("read_until", 6, 96),
    ("read_line", 6, 96),
    ("read_line_growing", 6, 96),
    ("read_exact", 6, 288),
    ("read_to_end", 600, 600),
    ("cursor_overwrite", 6, 96),
    ("cursor_extend", 6, 96),
    ("write_all", 6, 96),
    ("buf_writer", 6, 96),
    ("write", 6, 96),
    ("write_vectored", 6, 96),
    ("flush", 6, 30),
    ("close", 6, 30),
    ("zip", 3, 3),
    ("or", 3, 3),
    // (as that of `race_streams`)
    ("race_with_seed", 64, 1145),
    ("race_futures", 10, 15),
    ("with_poll_limit", 3, 3),
    ("block_on_yield", 3, 3),
    ("held_yield", 3, 3),
    ("block_on_ready", 3, 4),
    ("held_ready", 3, 4),
    ("try_zip", 3, 3),
    ("poll_once", 3, 3),
    ("wait_read", 6, 96),
    ("wait_read_exact", 6, 288),
    ("wait_read_until", 6, 96),
    ("wait_read_until_limited", 6, 96),
    ("wait_write_all", 6, 96),
    ("wait_frame", 6, 96),
    ("wait_send", 6, 120),
    ("collect_frames", 6, 96),
    ("wait_send_all", 6, 120),
    ("vectored_read", 6, 756),
    ("inspect", 4, 12),
    ("last", 4, 6),
    ("nth", 4, 3),
    ("any", 6, 0),
    ("position", 6, 6),
    ("find_map", 6, 6),
    ("partition", 6, 15),
    ("unzip", 4, 16),
    ("count", 6, 4),
    ("find", 6, 6),
    ("all", 6, 1),
];

/// Cases of readers, which read each byte of a noise once.
const READERS: [&str; 15] = [
    "bytes",
    "cursor_read",
    "buf_reader",
    "chain_read",
    "fill",
    "take_fill",
    "chain_fill",
    "half",
    "take_read",
    "asserted_read",
    "with_budget_read",
    "as_sync_read",
    "held_read",
    "blocking_read",
    "waits_read",
];

/// Whether each case gives the number that it has to: `Wrong` names the first that doesn't.
pub(crate) fn check<R>(rt: &R, cx: &mut Context<'_>) -> Result<(), Fault>
where
    R: Wait + RandomSource + AllocGlobal + Copy,
{
    for (name, n, items) in streams::FOLDS {
        gives(name, computed(rt, cx, name, *n)? == folded(items))?;
    }
    for (name, n, items) in consuming::FOLDS {
        gives(name, computed(rt, cx, name, *n)? == folded(items))?;
    }
    for (name, n, items) in merging::FOLDS {
        gives(name, computed(rt, cx, name, *n)? == folded(items))?;
    }
    for (name, n, items) in FOLDS {
        gives(name, computed(rt, cx, name, *n)? == folded(items))?;
    }
    for (name, n, number) in &NUMBERS {
        gives(name, computed(rt, cx, name, *n)? == *number)?;
    }
    check_readers(rt, cx)?;
    gives(
        "scripts",
        computed(rt, cx, "scripts", 1999)? == kept_of_a_script(),
    )?;
    gives(
        "nest_of_eight",
        computed(rt, cx, "nest_of_eight", 1_000_000)? == kept_by_eight(1_000_000),
    )?;
    gives(
        "with_budget",
        computed(rt, cx, "with_budget", 1000)? == computed(rt, cx, "iter", 1000)?,
    )?;
    gives("Iter", computed(rt, cx, "Iter", 1) == Err(Fault::Arguments))
}

fn check_readers<R>(rt: &R, cx: &mut Context<'_>) -> Result<(), Fault>
where
    R: Wait + RandomSource + AllocGlobal + Copy,
{
    let n = 10_000u64;
    let mut sum = 0u64;
    for byte in &noise(rt.alloc(), n)? {
        sum = sum.wrapping_add(*byte as u64);
    }
    for name in &READERS {
        gives(name, computed(rt, cx, name, n)? == sum)?;
    }
    let entries = sum.wrapping_add(n);
    gives("journal", computed(rt, cx, "journal", n)? == entries)
}

fn gives(name: &'static str, is_right: bool) -> Result<(), Fault> {
    if is_right {
        Ok(())
    } else {
        Err(Fault::Wrong(name))
    }
}

fn folded(items: &[u64]) -> u64 {
    items.iter().fold(0, |sum: u64, x: &u64| with_item(sum, *x))
}

/// What the adapters of `nest_of_eight` make of the numbers below `n`.
fn kept_by_eight(n: u64) -> u64 {
    let mut sum = 0u64;
    let mut kept = 0u64;
    for x in 0..n {
        let tripled = x.wrapping_mul(3);
        if tripled & 7 != 0 {
            if kept >= 3 {
                sum = with_item(sum, tripled ^ kept);
            }
            kept = kept.wrapping_add(1);
        }
    }
    sum
}

/// What the adapters of `scripts` keep of the numbers below 1000.
fn kept_of_a_script() -> u64 {
    let mut sum = 0u64;
    for x in 0..1000u64 {
        if x % 8 != 7 && x % 4 != 0 {
            sum = with_item(sum, x * 3);
        }
    }
    sum
}
