//! A chat room: who has a seat, and which lines each member has still to be told.
#![tactic(auto)]

pub mod frame;
pub mod room;
pub mod routing;
pub mod seat;
