//! Words that readers and writers are made from.
use crate::words::{Fault, Words};
use futures_lite::io::SeekFrom;
use lite_mock::Marks;
use std::alloc::Global;
use std::io::ErrorKind;

/// The kind of an error that is told.
pub(crate) fn kind_of(word: &str) -> Result<ErrorKind, Fault> {
    match word {
        "FO" => Ok(ErrorKind::Other),
        "FI" => Ok(ErrorKind::Interrupted),
        "FT" => Ok(ErrorKind::TimedOut),
        "FM" => Ok(ErrorKind::OutOfMemory),
        _ => Err(Fault::Words),
    }
}

fn nibble(b: u8) -> Result<u8, Fault> {
    match b {
        b'0'..=b'9' => Ok(b - b'0'),
        b'a'..=b'f' => Ok(b - b'a' + 10),
        _ => Err(Fault::Words),
    }
}

/// Bytes by two digits each, and none of `-`.
pub(crate) fn bytes_of(alloc: Global, word: &str) -> Result<Vec<u8>, Fault> {
    let mut bytes = Vec::new(alloc);
    if word == "-" {
        return Ok(bytes);
    }
    let mut high = None;
    for b in word.bytes() {
        let digit = nibble(b)?;
        match high {
            None => high = Some(digit),
            Some(first) => {
                bytes.push(first * 16 + digit)?;
                high = None;
            }
        }
    }
    match high {
        None => Ok(bytes),
        Some(_) => Err(Fault::Words),
    }
}

/// A text by the bytes of its UTF-8.
pub(crate) fn text_of(alloc: Global, word: &str) -> Result<String, Fault> {
    let bytes = bytes_of(alloc, word)?;
    match std::str::from_utf8(bytes.as_slice()) {
        Ok(text) => Ok(String::from_str(alloc, text)?),
        Err(_) => Err(Fault::Words),
    }
}

/// A byte by its number.
pub(crate) fn byte_of(words: &mut Words<'_>) -> Result<u8, Fault> {
    match words.take()?.parse::<u8>() {
        Ok(byte) => Ok(byte),
        Err(_) => Err(Fault::Words),
    }
}

/// The reader of `M:6162,P,FO,E`, without the `M:`; one that ends at once of the empty text.
pub(crate) fn marks_of(alloc: Global, word: &str) -> Result<Marks, Fault> {
    let mut marks = Marks::new(alloc);
    if word.is_empty() {
        return Ok(marks);
    }
    for piece in word.split(',') {
        match piece {
            "P" => marks.pending()?,
            "E" => marks.end()?,
            _ if piece.starts_with("F") => marks.fault(kind_of(piece)?)?,
            _ => marks.chunk(bytes_of(alloc, piece)?.as_slice())?,
        }
    }
    Ok(marks)
}

/// The place of `s N`, `c N` and `e N`, of which `word` is the first; no other word names one.
pub(crate) fn place_of(word: &str, words: &mut Words<'_>) -> Result<Option<SeekFrom>, Fault> {
    Ok(match word {
        "s" => Some(SeekFrom::Start(words.number()? as u64)),
        "c" => Some(SeekFrom::Current(words.signed()?)),
        "e" => Some(SeekFrom::End(words.signed()?)),
        _ => None,
    })
}
