//! Lines of two readers of which one is pending before each chunk.
ghost use Rattle.std.specs.Prelude.{◌≡◌, [], IfOk};
ghost use Rattle.lite_buffered.specs.BufReader.{ahead, reader_capacity, reader_inner};

use super::scripts::{both_ran, ready_ones};
use lite_base::Poll;
use lite_buffered::BufReader;
use lite_buffered::make::take;
use lite_mock::Marks;
use nests_agree::collected::{gathered_lengths_agree, gathered_lines_agree, tried_lines_agree};
use nests_agree::lines::{futures_of_lines_agree, lengths_agree, lines_agree};
use std::alloc::AllocError;
use std::io::{self, ErrorKind};
use std::test::Fail;

/// A reader of these chunks with a buffer of three bytes; a late one is pending before each chunk.
fn buffered(
    rt: &HostRuntime,
    chunks: &[&[u8]],
    is_late: bool,
) -> Result<BufReader<Marks>, AllocError>
    ensures { IfOk result (λ r. (ahead r ≡ []) × (reader_capacity r ≡ 3)) }
{
    let mut marks = Marks::new(rt.alloc());
    for chunk in chunks {
        if is_late {
            marks.pending()?;
        }
        marks.chunk(chunk)?;
    }
    match BufReader::with_capacity(rt.alloc(), 3, marks) {
        Ok(reader) => Ok(reader),
        Err(_) => Err(AllocError),
    }
}

/// The lengths that are ready, in order; `None` is an end, and an error is none of these.
fn lengths(
    rt: &HostRuntime,
    answers: Vec<Poll<Option<io::Result<usize>>>>,
) -> Result<Vec<Option<usize>>, Fail> {
    let mut lengths = Vec::new(rt.alloc());
    for answer in ready_ones(rt, answers)? {
        lengths.push(answer.transpose()?)?;
    }
    Ok(lengths)
}

/// The lines that are ready, in order, with a semicolon behind each: of an error its kind, and of an end "end".
fn spelled(
    rt: &HostRuntime,
    answers: Vec<Poll<Option<io::Result<String>>>>,
) -> Result<String, Fail> {
    let mut told = String::new(rt.alloc());
    for answer in ready_ones(rt, answers)? {
        let line = match answer {
            Some(Ok(text)) => text,
            Some(Err(e)) => format!(in rt.alloc(); "{:?}", e.kind())?,
            None => String::from_str(rt.alloc(), "end")?,
        };
        told.push_str(line.as_str())?;
        told.push(';')?;
    }
    Ok(told)
}

#[test]
fn lines_after_a_pending_agree(rt: HostRuntime) -> Result<(), Fail> {
    let chunks: [&[u8]; 3] = [b"ab\n\ncd", b"e\nf", b"gh\n"];
    let one = buffered(&rt, &chunks, false)?;
    let other = buffered(&rt, &chunks, true)?;
    let alloc = rt.alloc();
    let (got, got_late) = both_ran(&rt, 4, 9, |cx, runs| {
        lengths_agree(one, other, alloc, 5, cx, runs)
    })?;
    let expected = [Some(2), Some(3), Some(3), None];
    assert_eq!(rt; lengths(&rt, got)?.as_slice(), expected.as_slice());
    let late = lengths(&rt, got_late)?;
    assert_eq!(rt; &late[..4], expected.as_slice());
    Ok(())
}

/// Appends the line with a bar behind it.
fn append(all: &mut String, line: &str) -> Result<(), AllocError> {
    all.push_str(line)?;
    all.push_str("|")?;
    Ok(())
}

#[test]
fn lines_are_collected_alike(rt: HostRuntime) -> Result<(), Fail> {
    let chunks: [&[u8]; 3] = [b"ab\n\ncd", b"e\nf", b"gh\n"];
    let one = buffered(&rt, &chunks, false)?;
    let other = buffered(&rt, &chunks, true)?;
    let (got, late) = tried_lines_agree(&rt, take(one, 7), take(other, 7), 9)?;
    for value in [got, late] {
        let mut all = String::new(rt.alloc());
        for text in &value? {
            append(&mut all, text.as_str())?;
        }
        assert_eq!(rt; all.as_str(), "ab||cde|");
    }
    Ok(())
}

#[test]
fn lines_are_collected_with_their_errors(rt: HostRuntime) -> Result<(), Fail> {
    let chunks: [&[u8]; 3] = [b"ab\n\xff\ncd", b"e\nf", b"gh\n"];
    let one = buffered(&rt, &chunks, false)?;
    let other = buffered(&rt, &chunks, true)?;
    let (got, late) = gathered_lines_agree(&rt, one, other, 9)?;
    for value in [got, late] {
        let mut all = String::new(rt.alloc());
        for item in &value? {
            match item {
                Ok(text) => append(&mut all, text.as_str())?,
                Err(e) if e.kind() == ErrorKind::InvalidData => append(&mut all, "!")?,
                Err(e) => return Err(Fail::from(e.kind())),
            }
        }
        assert_eq!(rt; all.as_str(), "ab|!|cde|fgh|");
    }
    Ok(())
}

#[test]
fn lengths_are_collected_alike(rt: HostRuntime) -> Result<(), Fail> {
    let chunks: [&[u8]; 3] = [b"ab\n\xff\n\ncd", b"e\nf", b"gh\ni\n"];
    let one = buffered(&rt, &chunks, false)?;
    let other = buffered(&rt, &chunks, true)?;
    let (got, late) = gathered_lengths_agree(&rt, one, other, 5)?;
    for value in [got, late] {
        let mut all = Vec::new(rt.alloc());
        for item in &value? {
            all.push(match item {
                Ok(n) => Some(*n),
                Err(e) if e.kind() == ErrorKind::InvalidData => None,
                Err(e) => return Err(Fail::from(e.kind())),
            })?;
        }
        assert_eq!(rt;
            all.as_slice(),
            [Some(2), None, Some(3), Some(3)].as_slice()
        );
    }
    Ok(())
}

#[test]
fn futures_of_lines_agree_after_a_pending(rt: HostRuntime) -> Result<(), Fail> {
    let chunks: [&[u8]; 3] = [b"ab\n\ncd", b"e\nf", b"gh\n"];
    let one = buffered(&rt, &chunks, false)?;
    let other = buffered(&rt, &chunks, true)?;
    let alloc = rt.alloc();
    let (got, got_late) = both_ran(&rt, 4, 9, |cx, runs| {
        futures_of_lines_agree(one, other, alloc, 3, cx, runs)
    })?;
    let expected = [Some(2), Some(0), Some(3), None];
    assert_eq!(rt; ready_ones(&rt, got)?.as_slice(), expected.as_slice());
    let late = ready_ones(&rt, got_late)?;
    assert_eq!(rt; &late[..4], expected.as_slice());
    Ok(())
}

#[test]
fn lines_without_a_refusal_agree(rt: HostRuntime) -> Result<(), Fail> {
    let chunks: [&[u8]; 2] = [b"ab\nc", b"d\r\n\xff\n"];
    let one = buffered(&rt, &chunks, false)?;
    let other = buffered(&rt, &chunks, true)?;
    let alloc = rt.alloc();
    let (got, got_late) = both_ran(&rt, 4, 6, |cx, runs| {
        lines_agree(one, other, alloc, cx, runs)
    })?;
    let expected = "ab;cd;InvalidData;end;";
    assert_eq!(rt; spelled(&rt, got)?.as_str(), expected);
    assert_eq!(rt; spelled(&rt, got_late)?.as_str(), expected);
    Ok(())
}
