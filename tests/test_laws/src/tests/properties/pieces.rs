//! Streams and a future that cut what a reader tells, and copies.
use lite_base::{CalmFuture, CalmStream, SteadyFuture, SteadyStream};
use lite_read::make::{bytes, lines, read_until, split};
use lite_write::make::{copy, sink};
use properties_met::reading::{copies_have_properties, pieces_have_properties};
use std::alloc::AllocError;
use std::test::Fail;

fn steady<S: SteadyStream>(stream: &S) {
    stream.is_steady_stream();
}

/// Asks for both marks of a stream.
fn both<S: SteadyStream + CalmStream>(stream: &S) {
    steady(stream);
    stream.is_calm_stream();
}

/// Asks for both marks of a future.
fn both_future<F: SteadyFuture + CalmFuture>(future: &F) {
    future.is_steady_future();
    future.is_calm_future();
}

#[test]
fn what_cuts_a_reader_is_steady_and_calm(rt: HostRuntime) -> Result<(), Fail> {
    let mut text: &[u8] = b"ab-";
    both(&lines(text, rt.alloc()));
    both(&split(text, rt.alloc(), b'-'));
    // It is pending where its reader is interrupted.
    steady(&bytes(text));
    both_future(&read_until(&mut text, b'-', &mut Vec::new(rt.alloc())));
    Ok(())
}

#[test]
fn pieces_and_copies_have_properties(rt: HostRuntime) -> Result<(), Fail> {
    let text: &[u8] = b"ab-";
    let (x, y) = (lines(text, rt.alloc()), lines(text, rt.alloc()));
    let (v, w) = (split(text, rt.alloc(), b'-'), split(text, rt.alloc(), b'-'));
    pieces_have_properties(&x, &y, &v, &w);
    let (first, second) = (
        copy(rt.alloc(), text, sink()),
        copy(rt.alloc(), text, sink()),
    );
    let (Ok(one), Ok(other)) = (first, second) else {
        return Err(AllocError.into());
    };
    copies_have_properties(&one, &other);
    Ok(())
}
