//! `example_pipeline` by hand over the original: a line for each sum of three even numbers of standard input.

use futures_lite::future::block_on;
use futures_lite::io::{AssertAsync, AsyncBufReadExt, AsyncWrite, AsyncWriteExt, BufReader, BufWriter};
use std::io;

/// How many bytes a read or a write moves.
const BUFFER: usize = 1 << 16;

fn main() -> io::Result<()> {
    block_on(run())
}

async fn run() -> io::Result<()> {
    let mut reader = BufReader::with_capacity(BUFFER, AssertAsync::new(io::stdin()));
    let mut writer = BufWriter::with_capacity(BUFFER, AssertAsync::new(io::stdout()));
    let (mut line, mut sum, mut held) = (Vec::new(), 0u64, 0);
    while reader.read_until(b'\n', &mut line).await? > 0 {
        let number = number(&line)?;
        line.clear();
        if number & 1 == 0 {
            sum = sum.checked_add(number).ok_or_else(bad)?;
            held += 1;
        }
        if held == 3 {
            write_sum(&mut writer, sum).await?;
            (sum, held) = (0, 0);
        }
    }
    if held > 0 {
        write_sum(&mut writer, sum).await?;
    }
    writer.flush().await
}

fn bad() -> io::Error {
    io::Error::from(io::ErrorKind::InvalidData)
}

fn number(line: &[u8]) -> io::Result<u64> {
    let text = match line.strip_suffix(b"\n") {
        Some(front) => front.strip_suffix(b"\r").unwrap_or(front),
        None => line,
    };
    std::str::from_utf8(text).map_err(|_| bad())?.parse().map_err(|_| bad())
}

async fn write_sum<W: AsyncWrite + Unpin>(writer: &mut W, sum: u64) -> io::Result<()> {
    writer.write_all(sum.to_string().as_bytes()).await?;
    writer.write_all(b"\n").await
}
