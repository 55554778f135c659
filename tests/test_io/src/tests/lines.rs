//! Tests of where lines end, and of lines, pieces and texts, where a case says too little.
mod scan;
mod texts;
mod told;

use lite_bridge::Cursor;
use lite_buffered::BufReader;
use lite_mock::Marks;
use lite_read::make::{lines, split};
use std::io::ErrorKind;
use std::test::Fail;
use told::{ok_ranked, take_error, told};

/// Whether these are the lines that were told, and then an end.
fn are_lines(told: &[Option<Result<String, ErrorKind>>], lines: &[&str]) -> bool {
    if told.len() != lines.len() + 1 {
        return false;
    }
    for i in 0..lines.len() {
        match &told[i] {
            Some(Ok(line)) if line.as_str() == lines[i] => {}
            _ => return false,
        }
    }
    told[lines.len()].is_none()
}

// Memory is refused where the test is run with an allocation that fails.
#[test]
fn a_refused_line_comes_at_the_next_poll(rt: HostRuntime) -> Result<(), Fail> {
    let reader = Cursor::new(b"hello\nworld".as_slice());
    let mut told = told(&rt, &mut ok_ranked(lines(reader, rt.alloc())), 4)?;
    if take_error(&mut told, ErrorKind::OutOfMemory).is_none() {
        told.pop();
    }
    assert!(rt; are_lines(told.as_slice(), &["hello", "world"]));
    Ok(())
}

// Memory is refused here too if the test is run with an allocation that fails.
#[test]
fn a_refused_growth_of_a_line_is_an_item_before_it(rt: HostRuntime) -> Result<(), Fail> {
    let mut marks = Marks::new(rt.alloc());
    marks.chunk(b"ab\n")?;
    let Ok(reader) = BufReader::new(rt.alloc(), marks) else {
        return Err(Fail::from("no memory for a buffer"));
    };
    let mut told = told(&rt, &mut lines(reader, rt.alloc()), 3)?;
    match take_error(&mut told, ErrorKind::OutOfMemory) {
        Some(place) => assert_eq!(rt; place, 0),
        None => assert!(rt; matches!(told.pop(), Some(None))),
    }
    assert!(rt; are_lines(told.as_slice(), &["ab"]));
    Ok(())
}

#[test]
fn many_lines(rt: HostRuntime) -> Result<(), Fail> {
    const LINES: usize = 1_000;
    let mut text = Vec::with_capacity(rt.alloc(), 5 * LINES)?;
    for _ in 0..LINES {
        text.extend_from_slice(b"line\n")?;
    }
    let reader = Cursor::new(text.as_slice());
    let mut told = told(&rt, &mut lines(reader, rt.alloc()), LINES + 2)?;
    if take_error(&mut told, ErrorKind::OutOfMemory).is_none() {
        told.pop();
    }
    let mut n = 0_usize;
    for line in &told {
        if matches!(line, Some(Ok(line)) if line.as_str() == "line") {
            n = n.saturating_add(1);
        }
    }
    assert_eq!(rt; n, LINES);
    assert!(rt; matches!(told.last(), Some(None)));
    Ok(())
}

/// Whether these are the pieces that were told, and then an end.
fn are_pieces(told: &[Option<Result<Vec<u8>, ErrorKind>>], pieces: &[&[u8]]) -> bool {
    if told.len() != pieces.len() + 1 {
        return false;
    }
    for i in 0..pieces.len() {
        match &told[i] {
            Some(Ok(piece)) if piece.as_slice() == pieces[i] => {}
            _ => return false,
        }
    }
    told[pieces.len()].is_none()
}

// Memory is refused where the test is run with an allocation that fails.
#[test]
fn a_refused_piece_comes_at_the_next_poll(rt: HostRuntime) -> Result<(), Fail> {
    let wanted: [&[u8]; 2] = [b"hello", b"world"];
    let reader = Cursor::new(b"hello-world".as_slice());
    let mut told = told(&rt, &mut ok_ranked(split(reader, rt.alloc(), b'-')), 4)?;
    if take_error(&mut told, ErrorKind::OutOfMemory).is_none() {
        told.pop();
    }
    assert!(rt; are_pieces(told.as_slice(), &wanted));
    Ok(())
}
