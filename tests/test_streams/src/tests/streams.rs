//! Tests of sources and adapters, where a case of `cases/sources.txt` or `cases/adapters.txt` cannot say it.
mod adapters;
mod cycles;
mod examples;
pub(crate) mod guards;
mod scarce;
mod sources;
mod text;
mod waking;
