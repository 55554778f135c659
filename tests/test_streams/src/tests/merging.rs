//! Tests of merged streams, where a case of `cases/merging.txt` cannot say it.
mod always;
mod collected;
mod merge;
mod waking;
mod whole;
