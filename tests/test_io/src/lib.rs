//! Tests of readers, writers and lines, where a file of `cases/` says too little.
#![tactic(auto)]

#[cfg(test)]
mod tests;
