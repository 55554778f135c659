//! One client of a chat room: a session writes what the client is told, and says what the client sends.
#![tactic(auto)]

pub mod laws;
pub mod session;
