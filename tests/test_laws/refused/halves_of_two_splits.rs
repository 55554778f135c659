//! error[mismatched-types]: the books of a split are part of its halves' types, so `history` takes halves of one split.
#![tactic(auto)]

use futures_lite::io::{
    AsyncRead, AsyncWrite, CounterNames, Journal, JournalReadHalf, JournalWriteHalf, history,
};
use std::alloc::AllocError;
use std::sync::Wait;

// The history of the half that reads of one split, with the half that writes of another.
fn mixed<R, T, A, B>(
    read: &mut JournalReadHalf<R, T, A>,
    write: &mut JournalWriteHalf<R, T, B>,
) -> Result<Journal<T>, AllocError>
where
    R: Wait,
    T: AsyncRead + AsyncWrite + Clone,
    A: CounterNames,
    B: CounterNames,
{
    history(read, write)
}

// With a test the crate is compiled.
#[test]
fn nothing() {}
