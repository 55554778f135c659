//! Tests of futures and streams, where a file of `cases/` cannot say it.
#![tactic(auto)]

#[cfg(test)]
mod tests;
