//! What connections share that are tasks of one thread: a limit of time, and an end that loses no reply.
#![tactic(auto)]

pub mod ending;
pub mod limit;
