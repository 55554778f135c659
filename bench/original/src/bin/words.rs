//! `example_words map` by hand over the original: a line `word TAB count` for each word of standard input, sorted.

use futures_lite::future::block_on;
use futures_lite::io::{AssertAsync, AsyncBufReadExt, AsyncWriteExt, BufReader, BufWriter};
use std::collections::BTreeMap;
use std::io;

/// How many bytes a read or a write moves.
const BUFFER: usize = 1 << 16;

fn main() -> io::Result<()> {
    block_on(map())
}

async fn map() -> io::Result<()> {
    let mut reader = BufReader::with_capacity(BUFFER, AssertAsync::new(io::stdin()));
    let mut counts = BTreeMap::<Vec<u8>, u64>::new();
    let mut line = Vec::new();
    while reader.read_until(b'\n', &mut line).await? > 0 {
        for word in line.split(u8::is_ascii_whitespace) {
            if let Some(count) = counts.get_mut(word) {
                *count += 1;
            } else if !word.is_empty() {
                counts.insert(word.to_vec(), 1);
            }
        }
        line.clear();
    }
    let mut writer = BufWriter::with_capacity(BUFFER, AssertAsync::new(io::stdout()));
    for (word, count) in &counts {
        writer.write_all(word).await?;
        writer.write_all(format!("\t{count}\n").as_bytes()).await?;
    }
    writer.flush().await
}
