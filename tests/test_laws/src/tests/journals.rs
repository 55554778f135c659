//! Tests of journals, and of the halves of streams and of journals, also in two threads.
mod driven;
mod gate;
mod journal;
mod listed;
mod pipe;
mod plain;
mod refused;
mod replays;
mod shown;
mod steps;
mod threads;
mod woken;
