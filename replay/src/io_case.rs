//! A case of readers and writers.
use crate::io_run::Run;
use crate::words::{Fault, Words};
use crate::{
    io_bridges, io_copying, io_cursors, io_halves, io_journals, io_lending, io_reading, io_writing,
};
use futures_lite::Context;
use std::alloc::{AllocGlobal, Global};
use std::sync::Wait;

/// Runs the case that the words name. What waits does so by `rt`.
pub(crate) fn answered<R: Wait + AllocGlobal + Copy + Drop>(
    rt: R,
    alloc: Global,
    cx: &mut Context<'_>,
    words: &mut Words<'_>,
    polls: usize,
    out: &mut String,
) -> Result<(), Fault> {
    let mut run = Run::new(alloc, cx, polls, out);
    let mode = words.take()?;
    let is_known = io_reading::answered(mode, &mut run, words)?
        || io_lending::answered(mode, &mut run, words)?
        || io_writing::answered(mode, &mut run, words)?
        || io_cursors::answered(mode, &mut run, words)?
        || io_copying::answered(mode, &mut run, words)?
        || io_journals::answered(mode, &mut run, words)?
        || io_halves::answered(rt, mode, &mut run, words)?
        || io_bridges::answered(mode, &mut run, words)?;
    // Calls may be left where no polls are.
    if is_known && (words.words.is_empty() || !run.has_polls()) {
        Ok(())
    } else {
        Err(Fault::Words)
    }
}
