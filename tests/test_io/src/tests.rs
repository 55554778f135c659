mod lines;
mod readers;
mod writers;
