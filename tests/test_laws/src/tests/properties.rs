//! Tests that ask each type for each property by the bound alone, and of the nests that agree by those properties.
mod agreeing;
mod iterators;
mod lines;
mod pieces;
mod readers;
mod scripts;
mod writers;
