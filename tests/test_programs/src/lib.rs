//! Tests of programs.
#![tactic(auto)]

#[cfg(test)]
mod tests;
