//! Lines, pieces and whole texts, and writes that go through a buffer. A line has 16 bytes, its newline included, where no other
//! is named.

use crate::bytes::{buffered, noise, write_blocks, BLOCK};
use futures_lite::io::{self, AsyncBufReadExt, AsyncReadExt, AsyncWrite, AsyncWriteExt, BufWriter, Cursor};
use futures_lite::Stream;
use std::future::Future;
use std::io::IoSlice;
use std::pin::{pin, Pin};
use std::task::{Context, Poll};

/// 16 bytes of letters of two bytes.
pub const WIDE: &str = "\u{e9}\u{e9}\u{e9}\u{e9}\u{e9}\u{e9}\u{e9}\u{e9}";

/// So many lines.
pub fn text(n: u64) -> Vec<u8> {
    let mut bytes = Vec::with_capacity((n * BLOCK) as usize);
    for _ in 0..n {
        bytes.extend_from_slice(b"0123456789abcde\n");
    }
    bytes
}

/// The lines alone, which the other cases make first.
#[inline(never)]
pub fn made_text(n: u64) -> u64 {
    std::hint::black_box(text(n)).len() as u64
}

/// A line of so many letters of two bytes each, one letter of one byte, and a newline.
pub fn wide_line(letters: u64) -> Vec<u8> {
    let mut line = Vec::new();
    for _ in 0..letters {
        line.extend_from_slice("\u{e9}".as_bytes());
    }
    line.extend_from_slice(b"a\n");
    line
}

/// A line of ASCII, of so many letters and a newline.
pub fn narrow_line(letters: u64) -> Vec<u8> {
    let mut line = Vec::new();
    for _ in 0..letters {
        line.extend_from_slice(b"a");
    }
    line.extend_from_slice(b"\n");
    line
}

/// One line, so many times.
#[inline(never)]
pub fn repeated(line: &[u8], n: u64) -> Vec<u8> {
    let mut bytes = Vec::new();
    for _ in 0..n {
        bytes.extend_from_slice(line);
    }
    bytes
}

/// One line so many times alone, which the next case makes first.
#[inline(never)]
pub fn made_lines(line: &[u8], n: u64) -> u64 {
    std::hint::black_box(repeated(line, n)).len() as u64
}

/// The bytes of all lines, without their newlines, of one line so many times.
#[inline(never)]
pub fn lines_of(cx: &mut Context<'_>, line: &[u8], n: u64) -> u64 {
    let bytes = repeated(line, n);
    count_lines(cx, &bytes, n)
}

/// The bytes of all lines, without their newlines.
#[inline(never)]
pub fn lines(cx: &mut Context<'_>, n: u64) -> u64 {
    let bytes = text(n);
    count_lines(cx, &bytes, n)
}

fn count_lines(cx: &mut Context<'_>, bytes: &[u8], n: u64) -> u64 {
    let mut lines = buffered(bytes).lines();
    let mut sum = 0u64;
    for _ in 0..n {
        let Poll::Ready(Some(Ok(line))) = Pin::new(&mut lines).poll_next(cx) else {
            break;
        };
        sum = sum.wrapping_add(line.len() as u64);
    }
    sum
}

/// The bytes of all pieces, without their delimiters.
#[inline(never)]
pub fn split(cx: &mut Context<'_>, n: u64) -> u64 {
    let bytes = text(n);
    let mut pieces = buffered(&bytes).split(b'\n');
    let mut sum = 0u64;
    for _ in 0..n {
        let Poll::Ready(Some(Ok(piece))) = Pin::new(&mut pieces).poll_next(cx) else {
            break;
        };
        sum = sum.wrapping_add(piece.len() as u64);
    }
    sum
}

/// So many lines into one vector, which is emptied before each.
#[inline(never)]
pub fn read_until(cx: &mut Context<'_>, n: u64) -> u64 {
    let bytes = text(n);
    let mut reader = buffered(&bytes);
    let mut line = Vec::new();
    let mut sum = 0u64;
    for _ in 0..n {
        line.clear();
        let Poll::Ready(Ok(read)) = pin!(reader.read_until(b'\n', &mut line)).poll(cx) else {
            break;
        };
        sum = sum.wrapping_add(read as u64);
    }
    sum
}

/// So many lines into one text, which is emptied before each.
#[inline(never)]
pub fn read_line(cx: &mut Context<'_>, n: u64) -> u64 {
    let bytes = text(n);
    let mut reader = buffered(&bytes);
    let mut line = String::new();
    let mut sum = 0u64;
    for _ in 0..n {
        line.clear();
        let Poll::Ready(Ok(read)) = pin!(reader.read_line(&mut line)).poll(cx) else {
            break;
        };
        sum = sum.wrapping_add(read as u64);
    }
    sum
}

/// So many lines, one after another, into one text. `read_line` of the original overwrites the text, so a line is appended by hand.
#[inline(never)]
pub fn read_line_growing(cx: &mut Context<'_>, n: u64) -> u64 {
    let bytes = text(n);
    let mut reader = buffered(&bytes);
    let mut lines = String::new();
    let mut line = String::new();
    let mut sum = 0u64;
    for _ in 0..n {
        line.clear();
        let Poll::Ready(Ok(read)) = pin!(reader.read_line(&mut line)).poll(cx) else {
            break;
        };
        lines.push_str(&line);
        sum = sum.wrapping_add(read as u64);
    }
    sum
}

/// So many reads that fill 16 bytes.
#[inline(never)]
pub fn read_exact(cx: &mut Context<'_>, n: u64) -> u64 {
    let bytes = text(n);
    let mut reader = buffered(&bytes);
    let mut block = [0u8; BLOCK as usize];
    let mut sum = 0u64;
    for _ in 0..n {
        let Poll::Ready(Ok(())) = pin!(reader.read_exact(&mut block)).poll(cx) else {
            break;
        };
        sum = sum.wrapping_add(block[0] as u64);
    }
    sum
}

/// So many bytes into one vector.
#[inline(never)]
pub fn read_to_end(cx: &mut Context<'_>, n: u64) -> u64 {
    let bytes = noise(n);
    let mut reader = Cursor::new(bytes.as_slice());
    let mut read = Vec::new();
    match pin!(reader.read_to_end(&mut read)).poll(cx) {
        Poll::Ready(Ok(count)) => count as u64,
        _ => 0,
    }
}

/// So many bytes of text, all ASCII or none, that are checked to be UTF-8.
#[inline(never)]
pub fn read_to_string(cx: &mut Context<'_>, letter: &[u8], n: u64) -> u64 {
    let bytes = repeated(letter, n / 16);
    let mut reader = Cursor::new(bytes.as_slice());
    let mut text = String::new();
    match pin!(reader.read_to_string(&mut text)).poll(cx) {
        Poll::Ready(Ok(count)) => count as u64,
        _ => 0,
    }
}

/// Takes all that is offered, and sums the first and the last byte of each write.
struct Ends {
    sum: u64,
}

impl AsyncWrite for Ends {
    fn poll_write(mut self: Pin<&mut Self>, _cx: &mut Context<'_>, buf: &[u8]) -> Poll<io::Result<usize>> {
        if !buf.is_empty() {
            self.sum = self.sum.wrapping_add(buf[0] as u64);
            self.sum = self.sum.wrapping_add(buf[buf.len() - 1] as u64);
        }
        Poll::Ready(Ok(buf.len()))
    }

    fn poll_flush(self: Pin<&mut Self>, _cx: &mut Context<'_>) -> Poll<io::Result<()>> {
        Poll::Ready(Ok(()))
    }

    fn poll_close(self: Pin<&mut Self>, _cx: &mut Context<'_>) -> Poll<io::Result<()>> {
        Poll::Ready(Ok(()))
    }
}

/// So many bytes to a writer that takes all, and reads of each write its first byte and its last.
#[inline(never)]
pub fn copy(cx: &mut Context<'_>, n: u64) -> u64 {
    let bytes = noise(n);
    let mut ends = Ends { sum: 0 };
    let copied = match pin!(io::copy(bytes.as_slice(), &mut ends)).poll(cx) {
        Poll::Ready(Ok(count)) => count,
        _ => 0,
    };
    copied.wrapping_add(ends.sum)
}

/// So many blocks into a vector with room for them.
#[inline(never)]
pub fn write_all(cx: &mut Context<'_>, n: u64) -> u64 {
    let mut bytes = Vec::with_capacity((n * BLOCK) as usize);
    for i in 0..n {
        let block = [(i & 255) as u8; BLOCK as usize];
        let Poll::Ready(Ok(())) = pin!(bytes.write_all(&block)).poll(cx) else {
            break;
        };
    }
    bytes.len() as u64
}

/// So many blocks through a buffer into a vector with room for them.
#[inline(never)]
pub fn buf_writer(cx: &mut Context<'_>, n: u64) -> u64 {
    let bytes = Vec::with_capacity((n * BLOCK) as usize);
    write_blocks(&mut BufWriter::new(bytes), cx, n)
}

/// As `write_all`, by one write for each block.
#[inline(never)]
pub fn write(cx: &mut Context<'_>, n: u64) -> u64 {
    let mut bytes = Vec::with_capacity((n * BLOCK) as usize);
    for i in 0..n {
        let block = [(i & 255) as u8; BLOCK as usize];
        let Poll::Ready(Ok(_)) = pin!(bytes.write(&block)).poll(cx) else {
            break;
        };
    }
    bytes.len() as u64
}

/// As `write`, of blocks in two halves.
#[inline(never)]
pub fn write_vectored(cx: &mut Context<'_>, n: u64) -> u64 {
    let mut bytes = Vec::with_capacity((n * BLOCK) as usize);
    for i in 0..n {
        let half = [(i & 255) as u8; 8];
        let bufs = [IoSlice::new(&half), IoSlice::new(&half)];
        let Poll::Ready(Ok(_)) = pin!(bytes.write_vectored(&bufs)).poll(cx) else {
            break;
        };
    }
    bytes.len() as u64
}

/// So many blocks through a buffer to a writer that takes all, with a flush behind each.
#[inline(never)]
pub fn flush(cx: &mut Context<'_>, n: u64) -> u64 {
    let mut writer = BufWriter::new(Ends { sum: 0 });
    for i in 0..n {
        let block = [(i & 255) as u8; BLOCK as usize];
        let Poll::Ready(Ok(())) = pin!(writer.write_all(&block)).poll(cx) else {
            break;
        };
        let Poll::Ready(Ok(())) = pin!(writer.flush()).poll(cx) else {
            break;
        };
    }
    writer.get_ref().sum
}

/// As `flush`, with a close behind each. The writer takes more after that.
#[inline(never)]
pub fn close(cx: &mut Context<'_>, n: u64) -> u64 {
    let mut writer = BufWriter::new(Ends { sum: 0 });
    for i in 0..n {
        let block = [(i & 255) as u8; BLOCK as usize];
        let Poll::Ready(Ok(())) = pin!(writer.write_all(&block)).poll(cx) else {
            break;
        };
        let Poll::Ready(Ok(())) = pin!(writer.close()).poll(cx) else {
            break;
        };
    }
    writer.get_ref().sum
}
