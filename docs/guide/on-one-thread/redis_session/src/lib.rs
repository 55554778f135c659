//! One client of a Redis server: a cutter of requests, and a responder by the commands of `example_redis`.
#![tactic(auto)]

pub mod array;
pub mod client;
pub mod cutter;
pub mod line;
pub mod pushing;
pub mod refusal;
pub mod session;
pub mod words;
