use super::{CODEC, Polled, encoded, frames_of, polled};
use bytes::BytesMut;
use framed::{FrameError, LengthDelimited};
use lite_mock::Marks;
use std::io::ErrorKind;
use std::test::Fail;
use test_support::answers;
use tokio_util::codec::{Decoder, Encoder};

#[test]
fn a_frame_has_at_most_so_many_bytes(rt: HostRuntime) -> Result<(), Fail> {
    let mut codec = LengthDelimited { max: 3 };
    let mut bytes = BytesMut::new(rt.alloc());
    bytes.extend_from_slice(b"\0\0\0\x03abc")?;
    match codec.decode(&mut bytes) {
        Ok(Some(frame)) => assert_eq!(rt; frame.as_slice(), b"abc".as_slice()),
        Err(FrameError::Io(_)) => return Err(Fail::from("no memory for a frame")),
        _ => return Err(Fail::from("three bytes are allowed")),
    }
    bytes.extend_from_slice(b"\0\0\0\x04")?;
    match codec.decode(&mut bytes) {
        Err(FrameError::TooLong(length)) => assert_eq!(rt; length, 4),
        _ => return Err(Fail::from("four bytes are too many")),
    }
    assert_eq!(rt; bytes.as_slice(), b"\0\0\0\x04".as_slice());
    Ok(())
}

#[test]
fn a_refused_frame_leaves_the_buffer(rt: HostRuntime) -> Result<(), Fail> {
    let mut codec = LengthDelimited { max: 3 };
    let mut bytes = BytesMut::new(rt.alloc());
    bytes.extend_from_slice(b"before")?;
    match codec.encode(b"four".as_slice(), &mut bytes) {
        Err(FrameError::TooLong(length)) => assert_eq!(rt; length, 4),
        _ => return Err(Fail::from("four bytes are too many")),
    }
    assert_eq!(rt; bytes.as_slice(), b"before".as_slice());
    if codec.encode("abc", &mut bytes).is_err() {
        return Err(Fail::from("no memory for a frame"));
    }
    assert_eq!(rt; bytes.as_slice(), b"before\0\0\0\x03abc".as_slice());
    Ok(())
}

#[test]
fn an_input_that_ends_within_a_frame_is_cut_off(rt: HostRuntime) -> Result<(), Fail> {
    let input = encoded(rt.alloc(), &[b"one", b"three"])?;
    for at in 0..input.len() {
        let mut marks = Marks::new(rt.alloc());
        marks.chunk(&input.as_slice()[..at])?;
        let mut frames = frames_of(rt.alloc(), 64, marks)?;
        let whole = usize::from(at >= 7);
        let ends = if at == 0 || at == 7 {
            Polled::Ended
        } else {
            Polled::Stopped("cut off", ErrorKind::UnexpectedEof)
        };
        let mut last = Polled::Pending;
        for answer in answers(&rt, &mut frames, whole + 1)? {
            last = polled(rt.alloc(), answer)?;
        }
        assert_eq!(rt; last, ends);
    }
    assert_eq!(rt; CODEC.max, 100);
    Ok(())
}
