use super::{Polled, polled};
use bytes::BytesMut;
use framed::{FrameError, FramedRead, LineDelimited};
use futures_lite::io::BufReader;
use lite_mock::Marks;
use std::alloc::{AllocError, Global};
use std::io::ErrorKind;
use std::test::Fail;
use test_support::answers;
use tokio_util::codec::{Decoder, Encoder};

const CODEC: LineDelimited = LineDelimited { max: 4 };

/// Encodes a line, and tells a refused allocation as an error of the test.
fn encode(line: &[u8], bytes: &mut BytesMut) -> Result<Result<(), FrameError>, Fail> {
    let mut codec = CODEC;
    match codec.encode(line, bytes) {
        Err(FrameError::Io(_)) => Err(AllocError.into()),
        encoded => Ok(encoded),
    }
}

#[test]
fn lines_that_are_encoded_come_back(rt: HostRuntime) -> Result<(), Fail> {
    let lines = [b"four".as_slice(), b"", b"\rab", b"\0\xff"];
    let mut bytes = BytesMut::new(rt.alloc());
    for line in lines {
        assert!(rt; encode(line, &mut bytes)?.is_ok());
    }
    assert_eq!(rt; bytes.as_slice(), b"four\n\n\rab\n\0\xff\n".as_slice());
    let mut codec = CODEC;
    for line in lines {
        match codec.decode(&mut bytes) {
            Ok(Some(decoded)) => assert_eq!(rt; decoded.as_slice(), line),
            Err(FrameError::Io(_)) => return Err(AllocError.into()),
            _ => return Err(Fail::from("there is a line")),
        }
    }
    assert!(rt; matches!(codec.decode_eof(&mut bytes), Ok(None)));
    Ok(())
}

#[test]
fn a_line_that_would_not_come_back_is_refused(rt: HostRuntime) -> Result<(), Fail> {
    let mut bytes = BytesMut::new(rt.alloc());
    bytes.extend_from_slice(b"before")?;
    assert!(rt;
        matches!(
            encode(b"a\nb\n", &mut bytes)?,
            Err(FrameError::HasNewline(1))
        )
    );
    assert!(rt; matches!(encode(b"a\r", &mut bytes)?, Err(FrameError::EndsInReturn)));
    assert!(rt; matches!(encode(b"a four", &mut bytes)?, Err(FrameError::TooLong(6))));
    assert!(rt; matches!(encode(b"a\nfour", &mut bytes)?, Err(FrameError::TooLong(6))));
    assert_eq!(rt; bytes.as_slice(), b"before".as_slice());
    Ok(())
}

#[test]
fn a_refused_line_is_refused_again(rt: HostRuntime) -> Result<(), Fail> {
    let mut codec = CODEC;
    let mut bytes = BytesMut::copy_from_slice(rt.alloc(), b"fifth\n")?;
    for _ in 0..2 {
        assert!(rt; matches!(codec.decode(&mut bytes), Err(FrameError::TooLong(5))));
        assert_eq!(rt; bytes.as_slice(), b"fifth\n".as_slice());
    }
    Ok(())
}

/// The last answer of so many polls of the lines of these bytes.
fn last_of(rt: &HostRuntime, bytes: &[u8], polls: usize) -> Result<Polled, Fail> {
    let alloc: Global = rt.alloc();
    let mut marks = Marks::new(alloc);
    marks.chunk(bytes)?;
    let Ok(reader) = BufReader::with_capacity(alloc, 3, marks) else {
        return Err(AllocError.into());
    };
    let mut lines = FramedRead::new(alloc, reader, CODEC);
    let mut last = Polled::Pending;
    for answer in answers(rt, &mut lines, polls)? {
        last = polled(alloc, answer)?;
    }
    Ok(last)
}

#[test]
fn an_input_that_ends_within_a_line_is_cut_off(rt: HostRuntime) -> Result<(), Fail> {
    let input = b"one\nk\r\n";
    for at in 0..input.len() + 1 {
        let whole = usize::from(at >= 4) + usize::from(at >= 7);
        let ends = if at == 0 || at == 4 || at == 7 {
            Polled::Ended
        } else {
            Polled::Stopped("cut off", ErrorKind::UnexpectedEof)
        };
        assert_eq!(rt; last_of(&rt, &input[..at], whole + 1)?, ends);
    }
    Ok(())
}
