//! Tests of journals and halves, and of marks.
#![tactic(auto)]

#[cfg(test)]
mod tests;
