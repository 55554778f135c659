mod exchanges;
mod executor;
mod http;
mod lines;
mod pipeline;
mod pollrun;
mod redis;
mod words;
