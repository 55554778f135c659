//! Tests of values that have the traits of the toolchain's `futures` and `tokio`, and of the toolchain's values here.
#![tactic(auto)]

#[cfg(test)]
mod tests;
