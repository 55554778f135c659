//! Tests of what consumes a stream, where a case of `cases/consuming.txt` cannot say it: long streams, refused memory,
//! collections of a caller's own, and the blocking stream.
mod block;
mod consume;
mod drops;
mod examples;
mod gather;
