//! How many bytes a nest has.

use crate::bytes::buffered;
use crate::fault::Fault;
use futures_lite::io::{AsyncBufReadExt, AsyncReadExt, BufWriter, Cursor};
use futures_lite::{StreamExt, future, io, stream};
use std::alloc::Global;
use std::mem::size_of_val;

/// The size of the nest of this number, from 0 on, or 0 where there is none.
pub(crate) fn size_of_nest(alloc: Global, number: u64) -> Result<u64, Fault> {
    if number < 14 {
        Ok(of_streams(number) as u64)
    } else if number < 18 {
        Ok(of_futures(alloc, number) as u64)
    } else if number < 27 {
        of_readers(alloc, number)
    } else {
        of_calls(alloc, number)
    }
}

fn of_streams(number: u64) -> usize {
    let numbers = stream::iter(0..9u64);
    match number {
        0 => size_of_val(&numbers),
        1 => size_of_val(&numbers.map(|x: u64| x ^ 1)),
        2 => size_of_val(&numbers.filter(|x: &u64| *x & 1 == 0)),
        3 => size_of_val(&numbers.take(5)),
        4 => size_of_val(&numbers.enumerate()),
        5 => size_of_val(&numbers.skip(5)),
        6 => size_of_val(&numbers.step_by(5)),
        7 => size_of_val(&numbers.chain(stream::iter(0..9u64))),
        8 => size_of_val(&numbers.zip(stream::iter(0..9u64))),
        9 => size_of_val(&numbers.or(stream::iter(0..9u64))),
        10 => size_of_val(&stream::race_with_seed(numbers, stream::iter(0..9u64), 7)),
        11 => size_of_val(&numbers.then(|x: u64| future::ready(x))),
        12 => size_of_val(&numbers.scan(0u64, |_s: &mut u64, x: u64| Some(x))),
        _ => size_of_val(
            &numbers
                .map(|x: u64| x ^ 1)
                .filter(|x: &u64| *x & 1 == 0)
                .take(5),
        ),
    }
}

fn of_futures(alloc: Global, number: u64) -> usize {
    let numbers = stream::iter(0..9u64);
    match number {
        14 => size_of_val(&numbers.count()),
        15 => size_of_val(&numbers.collect::<Vec<u64>>(alloc)),
        16 => size_of_val(&future::zip(future::ready(1u64), future::ready(2u64))),
        _ => size_of_val(&future::or(future::ready(1u64), future::ready(2u64))),
    }
}

fn of_readers(alloc: Global, number: u64) -> Result<u64, Fault> {
    let mut reader = buffered(alloc, b"")?;
    let mut bytes = Vec::new(alloc);
    let size = match number {
        18 => size_of_val(&reader),
        19 => size_of_val(&reader.take(5)),
        20 => size_of_val(&reader.chain(Cursor::new(b"".as_slice()))),
        21 => size_of_val(&reader.lines(alloc)),
        22 => size_of_val(&reader.split(alloc, b'\n')),
        23 => size_of_val(&reader.read_until(b'\n', &mut bytes)),
        24 => size_of_val(&reader.read_to_end(&mut bytes)),
        25 => match io::copy(alloc, reader, io::sink()) {
            Ok(copying) => size_of_val(&copying),
            Err(_) => return Err(Fault::Memory),
        },
        26 => match BufWriter::new(alloc, bytes) {
            Ok(writer) => size_of_val(&writer),
            Err(_) => return Err(Fault::Memory),
        },
        _ => 0,
    };
    Ok(size as u64)
}

fn of_calls(alloc: Global, number: u64) -> Result<u64, Fault> {
    let mut reader = buffered(alloc, b"")?;
    let mut text = String::new(alloc);
    let mut block = [0u8; 16];
    let size = match number {
        27 => size_of_val(&stream::unfold(0u64, |s: u64| future::ready(Some((s, s ^ 1))))),
        28 => size_of_val(&reader.fill_buf()),
        29 => size_of_val(&reader.read_exact(&mut block)),
        30 => size_of_val(&reader.read_line(&mut text)),
        31 => size_of_val(&reader.read_to_string(&mut text)),
        _ => 0,
    };
    Ok(size as u64)
}
