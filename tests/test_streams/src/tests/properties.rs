//! Each type that carries a mark is asked for it by the bound alone.
use lite_base::{
    ArmedFuture, ArmedStream, CalmFuture, CalmStream, Counted, OkCounted, SteadyFuture,
    SteadyStream,
};

pub(crate) fn steady<S: SteadyStream>(stream: &S) {
    stream.is_steady_stream();
}

pub(crate) fn calm<S: CalmStream>(stream: &S) {
    stream.is_calm_stream();
}

/// Asks for both marks of a stream.
pub(crate) fn both<S: SteadyStream + CalmStream>(stream: &S) {
    steady(stream);
    calm(stream);
}

pub(crate) fn counted<S: Counted>(stream: &S) {
    stream.is_counted();
}

/// Asks for both marks of a stream, and for a rank.
pub(crate) fn ranked<S: SteadyStream + CalmStream + Counted>(stream: &S) {
    both(stream);
    counted(stream);
}

/// Asks for the ranks over items and over `Ok` items.
pub(crate) fn ok_counted<S: OkCounted + Counted>(stream: &S) {
    counted(stream);
    stream.is_ok_counted();
}

pub(crate) fn steady_future<F: SteadyFuture>(future: &F) {
    future.is_steady_future();
}

pub(crate) fn calm_future<F: CalmFuture>(future: &F) {
    future.is_calm_future();
}

/// Asks for both marks of a future.
pub(crate) fn both_future<F: SteadyFuture + CalmFuture>(future: &F) {
    steady_future(future);
    calm_future(future);
}

pub(crate) fn armed<S: ArmedStream>(stream: &S) {
    stream.is_armed_stream();
}

pub(crate) fn armed_future<F: ArmedFuture>(future: &F) {
    future.is_armed_future();
}
