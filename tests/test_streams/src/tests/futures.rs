//! Tests of futures, of `block_on` and of wakes, where a case of `cases/futures.txt` cannot say it.
mod armed;
mod bell;
mod bounds;
mod counting;
mod future;
mod pendings;
mod sleeping;
mod waiting;
