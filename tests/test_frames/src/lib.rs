//! Tests of frames on a reader, and of a server of frames.
#![tactic(auto)]

#[cfg(test)]
mod tests;
