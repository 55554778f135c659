//! Real texts: what is written, which errors are returned, and that shards give what the whole text gives.
use example_words::fault::{LineError, WordsError};
use example_words::map::map;
use example_words::reduce::reduce;
use futures_lite::future::BlockOn;
use futures_lite::io::{BufReader, BufWriter};
use lite_mock::{Marks, Order, Takes};
use programs::ProgramError;
use std::alloc::{AllocGlobal, Global};
use std::io::ErrorKind;
use std::random::RandomSource;
use std::sync::Wait;
use std::test::Fail;

/// A text with words at both ends of lines, empty lines, words that begin others, and bytes that are not UTF-8.
const TEXT: &[u8] = b"b a  b\n\n\ta\r\nab a\xff\n c\x0bc\x0cb \nb";

type Run = Result<Vec<u8>, WordsError>;

// Returns what `map` writes for a text.
fn mapped<R>(rt: &R, text: &[u8]) -> Result<Run, Fail>
where
    R: Wait + RandomSource + AllocGlobal,
{
    let (mut on, mut reader, mut output) = (BlockOn::new(rt)?, text, Vec::new(rt.alloc()));
    Ok(match map(&mut on.waits(), rt, &mut reader, &mut output) {
        Ok(()) => Ok(output),
        Err(e) => Err(e),
    })
}

// Returns what `reduce` writes for some records.
fn reduced<R>(rt: &R, records: &[u8]) -> Result<Run, Fail>
where
    R: Wait + RandomSource + AllocGlobal,
{
    let (mut on, mut reader, mut output) = (BlockOn::new(rt)?, records, Vec::new(rt.alloc()));
    Ok(
        match reduce(&mut on.waits(), rt, &mut reader, &mut output) {
            Ok(()) => Ok(output),
            Err(e) => Err(e),
        },
    )
}

// Returns what was written by a run that succeeded.
fn written(run: Run) -> Result<Vec<u8>, Fail> {
    match run {
        Ok(text) => Ok(text),
        Err(_) => Err(Fail::from("the input is refused")),
    }
}

// Returns the lines of several texts, sorted as `LC_ALL=C sort -t TAB -k1,1` sorts those that `map` writes.
fn merged(alloc: Global, texts: &[Vec<u8>]) -> Result<Vec<u8>, Fail> {
    let mut lines = Vec::new(alloc);
    for text in texts {
        for line in text.as_slice().split_inclusive(|byte| *byte == b'\n') {
            lines.push(line)?;
        }
    }
    lines.sort_by(|x, y| key_of(x).cmp(key_of(y)))?;
    let mut all = Vec::new(alloc);
    for line in lines {
        all.extend_from_slice(line)?;
    }
    Ok(all)
}

// Returns what is before the first tab.
fn key_of(line: &[u8]) -> &[u8] {
    match line.iter().position(|byte| *byte == b'\t') {
        Some(tab) => &line[..tab],
        None => line,
    }
}

// Asserts that `reduce` refuses the line with this number.
fn assert_refused<R>(rt: &R, records: &[u8], line: u64, why: LineError) -> Result<(), Fail>
where
    R: Wait + RandomSource + AllocGlobal,
{
    match reduced(rt, records)? {
        Err(WordsError::Line(number, error)) if number == line && error == why => Ok(()),
        _ => Err(Fail::from("another line or error")),
    }
}

#[test]
fn words_are_counted(rt: HostRuntime) -> Result<(), Fail> {
    let counted = written(mapped(&rt, TEXT)?)?;
    let wanted = b"a\t2\nab\t1\na\xff\t1\nb\t4\nc\x0bc\t1\n".as_slice();
    assert_eq!(rt; counted.as_slice(), wanted);
    for empty in [b"".as_slice(), b"\n", b" \t\r\n \x0c"] {
        assert!(rt; written(mapped(&rt, empty)?)?.is_empty());
    }
    Ok(())
}

// Returns what `reduce` writes for the merged outputs of `map` for three shards of the text.
fn counted_in_shards<R>(rt: &R, shards: [&[u8]; 3]) -> Result<Vec<u8>, Fail>
where
    R: Wait + RandomSource + AllocGlobal,
{
    let mut outputs = Vec::new(rt.alloc());
    for shard in shards {
        let output = written(mapped(rt, shard)?)?;
        if outputs.push(output).is_err() {
            return Err(Fail::from("no memory"));
        }
    }
    written(reduced(rt, &merged(rt.alloc(), &outputs)?)?)
}

// Whether the text may be cut at a place: behind a newline, or at its start or its end.
fn is_line_end(at: usize) -> bool {
    at == 0 || at >= TEXT.len() || TEXT[at - 1] == b'\n'
}

#[test]
fn shards_give_what_the_whole_text_gives(rt: HostRuntime) -> Result<(), Fail> {
    let whole = written(mapped(&rt, TEXT)?)?;
    for first in 0..=TEXT.len() {
        for second in first..=TEXT.len() {
            if is_line_end(first) && is_line_end(second) {
                let shards = [&TEXT[..first], &TEXT[first..second], &TEXT[second..]];
                assert_eq!(rt;
                    counted_in_shards(&rt, shards)?,
                    whole,
                    "cut at {first} and {second}"
                );
            }
        }
    }
    Ok(())
}

#[test]
fn pieces_and_pendings_change_nothing(rt: HostRuntime) -> Result<(), Fail> {
    let whole = written(mapped(&rt, TEXT)?)?;
    for at in 0..=TEXT.len() {
        let mut told = Marks::new(rt.alloc());
        told.chunk(&TEXT[..at])?;
        told.pending()?;
        told.chunk(&TEXT[at..])?;
        let Ok(mut reader) = BufReader::with_capacity(rt.alloc(), 4, told) else {
            return Err(Fail::from("no memory"));
        };
        let (mut on, mut output) = (BlockOn::new(&rt)?, Vec::new(rt.alloc()));
        assert!(rt;
            map(&mut on.waits(), &rt, &mut reader, &mut output).is_ok(),
            "cut at {at}"
        );
        assert_eq!(rt; output, whole, "cut at {at}");
    }
    Ok(())
}

#[test]
fn counts_are_added_up(rt: HostRuntime) -> Result<(), Fail> {
    let all = reduced(&rt, b"a\t1\na\t41\nab\t7\nb\t18446744073709551614\nb\t1\n")?;
    let wanted = b"a\t42\nab\t7\nb\t18446744073709551615\n".as_slice();
    assert_eq!(rt; written(all)?.as_slice(), wanted);
    assert!(rt; written(reduced(&rt, b"")?)?.is_empty());
    Ok(())
}

#[test]
fn lines_that_are_no_records_are_refused(rt: HostRuntime) -> Result<(), Fail> {
    assert_refused(&rt, b"a\t1\nb\t2", 2, LineError::CutOff)?;
    assert_refused(&rt, b"a\t1\n\nb\t2\n", 2, LineError::NoTab)?;
    assert_refused(&rt, b"a 1\n", 1, LineError::NoTab)?;
    assert_refused(&rt, b"a\t1\n\t2\n", 2, LineError::NoWord)?;
    assert_refused(&rt, b"a b\t1\n", 1, LineError::NoWord)?;
    for count in [
        b"".as_slice(),
        b"0",
        b"+1",
        b"01",
        b"-1",
        b"1 ",
        b"1\r",
        b"\xff",
    ] {
        let mut line = Vec::from_slice(rt.alloc(), b"a\t1\na\t")?;
        line.extend_from_slice(count)?;
        line.extend_from_slice(b"\n")?;
        assert_refused(&rt, &line, 2, LineError::NoCount)?;
    }
    assert_refused(&rt, b"b\t1\na\t1\n", 2, LineError::OutOfOrder)?;
    assert_refused(&rt, b"ab\t1\nb\t1\na\t1\n", 3, LineError::OutOfOrder)?;
    assert_refused(
        &rt,
        b"b\t18446744073709551615\nb\t1\n",
        2,
        LineError::TooLarge,
    )?;
    assert_refused(&rt, b"b\t18446744073709551616\n", 1, LineError::TooLarge)
}

#[test]
fn an_error_of_the_input_is_returned(rt: HostRuntime) -> Result<(), Fail> {
    let mut told = Marks::new(rt.alloc());
    told.chunk(b"a\t1\nb\t")?;
    told.fault(ErrorKind::ConnectionReset)?;
    told.chunk(b"1\n")?;
    let Ok(mut reader) = BufReader::with_capacity(rt.alloc(), 4, told) else {
        return Err(Fail::from("no memory"));
    };
    let (mut on, mut output) = (BlockOn::new(&rt)?, Vec::new(rt.alloc()));
    match reduce(&mut on.waits(), &rt, &mut reader, &mut output) {
        Err(WordsError::Input(e)) => assert_eq!(rt; e.kind(), ErrorKind::ConnectionReset),
        _ => return Err(Fail::from("the input's error is not returned")),
    }
    assert!(rt; output.is_empty());
    Ok(())
}

#[test]
fn a_pipe_that_nobody_reads_is_told_apart(rt: HostRuntime) -> Result<(), Fail> {
    for kind in [ErrorKind::BrokenPipe, ErrorKind::ConnectionReset] {
        let mut taken = Takes::new(rt.alloc());
        taken.order(Order::Fail(kind))?;
        let Ok(mut writer) = BufWriter::with_capacity(rt.alloc(), 2, &mut taken) else {
            return Err(Fail::from("no memory"));
        };
        let mut reader = b"a b c".as_slice();
        let mut on = BlockOn::new(&rt)?;
        match map(&mut on.waits(), &rt, &mut reader, &mut writer) {
            Err(e) => assert_eq!(rt; e.is_broken_pipe(), kind == ErrorKind::BrokenPipe),
            Ok(()) => return Err(Fail::from("the output's error is not returned")),
        }
    }
    Ok(())
}
