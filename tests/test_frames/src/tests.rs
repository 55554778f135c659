mod frames;
mod serving;
mod texts;
