//! Tests of writers, of copies, and of bridges to std's traits and from them, where a case says too little.
mod assert_async;
mod async_as_sync;
mod block_on;
mod bridge;
mod budget;
mod buf_writer;
mod copy;
mod examples;
mod marks;
mod shown;
mod vectors;
