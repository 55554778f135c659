mod consuming;
mod futures;
mod merging;
mod properties;
pub(crate) mod streams;
