//! Lines, pieces and whole texts, and writes that go through a buffer. A line has 16 bytes, its newline included, where no other
//! is named.

use crate::bytes::{BLOCK, blocks_len, buffered, noise, write_blocks};
use crate::ends::Ends;
use crate::fault::Fault;
use futures_lite::io::{AsyncBufReadExt, AsyncReadExt, AsyncWriteExt, BufWriter, Cursor, IoSlice};
use futures_lite::{Context, Future, Poll, Stream, io};
use std::alloc::Global;

/// So many lines.
pub(crate) fn text(alloc: Global, n: u64) -> Result<Vec<u8>, Fault> {
    let mut bytes = Vec::with_capacity(alloc, blocks_len(n)? as usize)?;
    for _ in 0..n {
        bytes.extend_from_slice(b"0123456789abcde\n")?;
    }
    Ok(bytes)
}

/// The lines alone, which the other cases make first.
#[inline(never)]
pub(crate) fn made_text(alloc: Global, n: u64) -> Result<u64, Fault> {
    let bytes = text(alloc, n)?;
    Ok(bytes.len() as u64)
}

/// A line of so many letters of two bytes each, one letter of one byte, and a newline.
pub(crate) fn wide_line(alloc: Global, letters: u64) -> Result<Vec<u8>, Fault> {
    let mut line = Vec::new(alloc);
    for _ in 0..letters {
        line.extend_from_slice("\u{e9}".as_bytes())?;
    }
    line.extend_from_slice(b"a\n")?;
    Ok(line)
}

/// A line of ASCII, of so many letters and a newline.
pub(crate) fn narrow_line(alloc: Global, letters: u64) -> Result<Vec<u8>, Fault> {
    let mut line = Vec::new(alloc);
    for _ in 0..letters {
        line.extend_from_slice(b"a")?;
    }
    line.extend_from_slice(b"\n")?;
    Ok(line)
}

/// One line, so many times. It is never inlined, so that it costs the same in each case.
#[inline(never)]
pub(crate) fn repeated(alloc: Global, line: &[u8], n: u64) -> Result<Vec<u8>, Fault> {
    let mut bytes = Vec::new(alloc);
    for _ in 0..n {
        bytes.extend_from_slice(line)?;
    }
    Ok(bytes)
}

/// One line so many times alone, which the next case makes first.
#[inline(never)]
pub(crate) fn made_lines(alloc: Global, line: &[u8], n: u64) -> Result<u64, Fault> {
    let bytes = repeated(alloc, line, n)?;
    Ok(bytes.len() as u64)
}

/// The bytes of all lines, without their newlines, of one line so many times.
#[inline(never)]
pub(crate) fn lines_of(
    alloc: Global,
    cx: &mut Context<'_>,
    line: &[u8],
    n: u64,
) -> Result<u64, Fault> {
    let bytes = repeated(alloc, line, n)?;
    count_lines(alloc, cx, &bytes, n)
}

/// The bytes of all lines, without their newlines.
#[inline(never)]
pub(crate) fn lines(alloc: Global, cx: &mut Context<'_>, n: u64) -> Result<u64, Fault> {
    let bytes = text(alloc, n)?;
    count_lines(alloc, cx, &bytes, n)
}

fn count_lines(alloc: Global, cx: &mut Context<'_>, bytes: &[u8], n: u64) -> Result<u64, Fault> {
    let mut lines = buffered(alloc, bytes)?.lines(alloc);
    let mut sum = 0u64;
    for _ in 0..n {
        let Poll::Ready(Some(Ok(line))) = lines.poll_next(cx) else {
            break;
        };
        sum = sum.wrapping_add(line.len() as u64);
    }
    Ok(sum)
}

/// The bytes of all pieces, without their delimiters.
#[inline(never)]
pub(crate) fn split(alloc: Global, cx: &mut Context<'_>, n: u64) -> Result<u64, Fault> {
    let bytes = text(alloc, n)?;
    let mut pieces = buffered(alloc, &bytes)?.split(alloc, b'\n');
    let mut sum = 0u64;
    for _ in 0..n {
        let Poll::Ready(Some(Ok(piece))) = pieces.poll_next(cx) else {
            break;
        };
        sum = sum.wrapping_add(piece.len() as u64);
    }
    Ok(sum)
}

/// So many lines into one vector, which is emptied before each.
#[inline(never)]
pub(crate) fn read_until(alloc: Global, cx: &mut Context<'_>, n: u64) -> Result<u64, Fault> {
    let bytes = text(alloc, n)?;
    let mut reader = buffered(alloc, &bytes)?;
    let mut line = Vec::new(alloc);
    let mut sum = 0u64;
    for _ in 0..n {
        line.clear();
        let Poll::Ready(Ok(read)) = reader.read_until(b'\n', &mut line).poll(cx) else {
            break;
        };
        sum = sum.wrapping_add(read as u64);
    }
    Ok(sum)
}

/// So many lines into one text, which is emptied before each.
#[inline(never)]
pub(crate) fn read_line(alloc: Global, cx: &mut Context<'_>, n: u64) -> Result<u64, Fault> {
    let bytes = text(alloc, n)?;
    let mut reader = buffered(alloc, &bytes)?;
    let mut line = String::new(alloc);
    let mut sum = 0u64;
    for _ in 0..n {
        line.clear();
        let Poll::Ready(Ok(read)) = reader.read_line(&mut line).poll(cx) else {
            break;
        };
        sum = sum.wrapping_add(read as u64);
    }
    Ok(sum)
}

/// So many lines, one after another, into one text.
#[inline(never)]
pub(crate) fn read_line_growing(alloc: Global, cx: &mut Context<'_>, n: u64) -> Result<u64, Fault> {
    let bytes = text(alloc, n)?;
    let mut reader = buffered(alloc, &bytes)?;
    let mut lines = String::new(alloc);
    let mut sum = 0u64;
    for _ in 0..n {
        let Poll::Ready(Ok(read)) = reader.read_line(&mut lines).poll(cx) else {
            break;
        };
        sum = sum.wrapping_add(read as u64);
    }
    Ok(sum)
}

/// So many reads that fill 16 bytes.
#[inline(never)]
pub(crate) fn read_exact(alloc: Global, cx: &mut Context<'_>, n: u64) -> Result<u64, Fault> {
    let bytes = text(alloc, n)?;
    let mut reader = buffered(alloc, &bytes)?;
    let mut block = [0u8; BLOCK as usize];
    let mut sum = 0u64;
    for _ in 0..n {
        let Poll::Ready(Ok(())) = reader.read_exact(&mut block).poll(cx) else {
            break;
        };
        sum = sum.wrapping_add(block[0] as u64);
    }
    Ok(sum)
}

/// So many bytes into one vector.
#[inline(never)]
pub(crate) fn read_to_end(alloc: Global, cx: &mut Context<'_>, n: u64) -> Result<u64, Fault> {
    let bytes = noise(alloc, n)?;
    let mut reader = Cursor::new(bytes.as_slice());
    let mut read = Vec::new(alloc);
    match reader.read_to_end(&mut read).poll(cx) {
        Poll::Ready(Ok(count)) => Ok(count as u64),
        Poll::Ready(Err(_refused)) => Err(Fault::Memory),
        Poll::Pending => Ok(0),
    }
}

/// So many bytes of text, all ASCII or none, that are checked to be UTF-8.
#[inline(never)]
pub(crate) fn read_to_string(
    alloc: Global,
    cx: &mut Context<'_>,
    letter: &[u8],
    n: u64,
) -> Result<u64, Fault> {
    let bytes = repeated(alloc, letter, n / 16)?;
    let mut reader = Cursor::new(bytes.as_slice());
    let mut text = String::new(alloc);
    match reader.read_to_string(&mut text).poll(cx) {
        Poll::Ready(Ok(count)) => Ok(count as u64),
        Poll::Ready(Err(_refused)) => Err(Fault::Memory),
        Poll::Pending => Ok(0),
    }
}

/// So many bytes to a writer that takes all, and reads of each write its first byte and its last.
#[inline(never)]
pub(crate) fn copy(alloc: Global, cx: &mut Context<'_>, n: u64) -> Result<u64, Fault> {
    let bytes = noise(alloc, n)?;
    let mut ends = Ends { sum: 0 };
    let copied = copy_to(alloc, cx, &bytes, &mut ends)?;
    Ok(copied.wrapping_add(ends.sum))
}

fn copy_to(
    alloc: Global,
    cx: &mut Context<'_>,
    bytes: &[u8],
    ends: &mut Ends,
) -> Result<u64, Fault> {
    let Ok(mut copying) = io::copy(alloc, bytes, ends) else {
        return Err(Fault::Memory);
    };
    match copying.poll(cx) {
        Poll::Ready(Ok(count)) => Ok(count),
        Poll::Ready(Err(_)) | Poll::Pending => Ok(0),
    }
}

/// So many blocks into a vector with room for them.
#[inline(never)]
pub(crate) fn write_all(alloc: Global, cx: &mut Context<'_>, n: u64) -> Result<u64, Fault> {
    let mut bytes = Vec::with_capacity(alloc, blocks_len(n)? as usize)?;
    for i in 0..n {
        let block = [(i & 255) as u8; BLOCK as usize];
        let Poll::Ready(Ok(())) = bytes.write_all(&block).poll(cx) else {
            break;
        };
    }
    Ok(bytes.len() as u64)
}

/// So many blocks through a buffer into a vector with room for them.
#[inline(never)]
pub(crate) fn buf_writer(alloc: Global, cx: &mut Context<'_>, n: u64) -> Result<u64, Fault> {
    let bytes = Vec::with_capacity(alloc, blocks_len(n)? as usize)?;
    match BufWriter::new(alloc, bytes) {
        Ok(mut writer) => Ok(write_blocks(&mut writer, cx, n)),
        Err(_) => Err(Fault::Memory),
    }
}

/// As `write_all`, by one write for each block.
#[inline(never)]
pub(crate) fn write(alloc: Global, cx: &mut Context<'_>, n: u64) -> Result<u64, Fault> {
    let mut bytes = Vec::with_capacity(alloc, blocks_len(n)? as usize)?;
    for i in 0..n {
        let block = [(i & 255) as u8; BLOCK as usize];
        let Poll::Ready(Ok(_)) = bytes.write(&block).poll(cx) else {
            break;
        };
    }
    Ok(bytes.len() as u64)
}

/// As `write`, of blocks in two halves.
#[inline(never)]
pub(crate) fn write_vectored(alloc: Global, cx: &mut Context<'_>, n: u64) -> Result<u64, Fault> {
    let mut bytes = Vec::with_capacity(alloc, blocks_len(n)? as usize)?;
    for i in 0..n {
        let half = [(i & 255) as u8; 8];
        let bufs = [IoSlice::new(&half), IoSlice::new(&half)];
        let Poll::Ready(Ok(_)) = bytes.write_vectored(&bufs).poll(cx) else {
            break;
        };
    }
    Ok(bytes.len() as u64)
}

/// So many blocks through a buffer to a writer that takes all, with a flush behind each.
#[inline(never)]
pub(crate) fn flush(alloc: Global, cx: &mut Context<'_>, n: u64) -> Result<u64, Fault> {
    let Ok(mut writer) = BufWriter::new(alloc, Ends { sum: 0 }) else {
        return Err(Fault::Memory);
    };
    for i in 0..n {
        let block = [(i & 255) as u8; BLOCK as usize];
        let Poll::Ready(Ok(())) = writer.write_all(&block).poll(cx) else {
            break;
        };
        let Poll::Ready(Ok(())) = writer.flush().poll(cx) else {
            break;
        };
    }
    Ok(writer.get_ref().sum)
}

/// As `flush`, with a close behind each. The writer takes more after that.
#[inline(never)]
pub(crate) fn close(alloc: Global, cx: &mut Context<'_>, n: u64) -> Result<u64, Fault> {
    let Ok(mut writer) = BufWriter::new(alloc, Ends { sum: 0 }) else {
        return Err(Fault::Memory);
    };
    for i in 0..n {
        let block = [(i & 255) as u8; BLOCK as usize];
        let Poll::Ready(Ok(())) = writer.write_all(&block).poll(cx) else {
            break;
        };
        let Poll::Ready(Ok(())) = writer.close().poll(cx) else {
            break;
        };
    }
    Ok(writer.get_ref().sum)
}
