//! Cases of `texts` over Rust's std, for the table of large sizes.

use crate::bytes::noise;
use crate::texts::{repeated, text};
use crate::LETTERS;
use std::hint::black_box;
use std::io::{self, BufRead, BufReader, Cursor, Read, Write};

/// What the case of this name computes at size `n`.
pub fn computed(name: &str, n: u64) -> Option<u64> {
    Some(match name {
        "std_lines" => lines(n),
        "std_split" => split(n),
        "std_copy" => copy(n),
        "std_read_to_end" => read_to_end(n),
        "std_read_to_string" => read_to_string(n),
        _ => return None,
    })
}

/// The bytes of all lines, without their newlines.
#[inline(never)]
fn lines(n: u64) -> u64 {
    let bytes = text(n);
    let lines = BufReader::new(bytes.as_slice()).lines();
    lines.map_while(Result::ok).map(|line| line.len() as u64).sum()
}

/// The bytes of all pieces, without their delimiters.
#[inline(never)]
fn split(n: u64) -> u64 {
    let bytes = text(n);
    let pieces = BufReader::new(bytes.as_slice()).split(b'\n');
    pieces.map_while(Result::ok).map(|piece| piece.len() as u64).sum()
}

/// Takes all that is offered, and sums the first and the last byte of each write.
struct Ends {
    sum: u64,
}

impl Write for Ends {
    fn write(&mut self, buf: &[u8]) -> io::Result<usize> {
        if let (Some(first), Some(last)) = (buf.first(), buf.last()) {
            self.sum = self.sum.wrapping_add(*first as u64).wrapping_add(*last as u64);
        }
        Ok(buf.len())
    }

    fn flush(&mut self) -> io::Result<()> {
        Ok(())
    }
}

/// So many bytes to a writer that takes all.
#[inline(never)]
fn copy(n: u64) -> u64 {
    let bytes = noise(n);
    let mut ends = Ends { sum: 0 };
    let copied = io::copy(&mut bytes.as_slice(), &mut ends).unwrap_or(0);
    copied.wrapping_add(ends.sum)
}

/// So many bytes into one vector.
#[inline(never)]
fn read_to_end(n: u64) -> u64 {
    let bytes = noise(n);
    let mut read = Vec::new();
    let count = Cursor::new(bytes.as_slice()).read_to_end(&mut read).unwrap_or(0);
    black_box(read);
    count as u64
}

/// So many bytes of text, that are checked to be UTF-8.
#[inline(never)]
fn read_to_string(n: u64) -> u64 {
    let bytes = repeated(LETTERS, n / 16);
    let mut text = String::new();
    let count = Cursor::new(bytes.as_slice()).read_to_string(&mut text).unwrap_or(0);
    black_box(text);
    count as u64
}
