//! Tests of frames on a reader.
mod asleep;
mod collecting;
mod heads;
mod in_hand;
mod length_delimited;
mod lent;
mod line_delimited;
mod lines;
mod parts;
mod polls;
mod round_trip;
mod sending;

use bytes::BytesMut;
use framed::{FrameError, FramedRead, LengthDelimited};
use futures_lite::Poll;
use futures_lite::io::BufReader;
use lite_mock::Marks;
use std::alloc::{AllocError, Global};
use std::io::ErrorKind;
use std::test::Fail;
use tokio_util::codec::Encoder;

const CODEC: LengthDelimited = LengthDelimited { max: 100 };

type Frames = FramedRead<BufReader<Marks>, LengthDelimited>;

/// The bytes of these frames, one after the other.
fn encoded(alloc: Global, frames: &[&[u8]]) -> Result<BytesMut, Fail> {
    let (mut codec, mut bytes) = (CODEC, BytesMut::new(alloc));
    for frame in frames {
        if codec.encode(*frame, &mut bytes).is_err() {
            return Err(AllocError.into());
        }
    }
    Ok(bytes)
}

/// The frames of this reader, through a buffer of so many bytes.
fn frames_of(alloc: Global, capacity: usize, marks: Marks) -> Result<Frames, Fail> {
    let Ok(reader) = BufReader::with_capacity(alloc, capacity, marks) else {
        return Err(AllocError.into());
    };
    Ok(FramedRead::new(alloc, reader, CODEC))
}

/// What a poll returned, with the error as a word and a kind.
#[derive(Debug, PartialEq, Eq, Drop)]
enum Polled {
    Pending,
    Frame(Vec<u8>),
    Stopped(&'static str, ErrorKind),
    Ended,
}

/// The frame as the test compares it. An allocation that fails is told as an error of the test.
fn polled(
    alloc: Global,
    answer: Poll<Option<Result<BytesMut, FrameError>>>,
) -> Result<Polled, Fail> {
    Ok(match answer {
        Poll::Pending => Polled::Pending,
        Poll::Ready(None) => Polled::Ended,
        Poll::Ready(Some(Ok(frame))) => Polled::Frame(Vec::from_slice(alloc, frame.as_slice())?),
        Poll::Ready(Some(Err(FrameError::Io(e)))) if e.kind() == ErrorKind::OutOfMemory => {
            return Err(AllocError.into());
        }
        Poll::Ready(Some(Err(e))) => stopped(e),
    })
}

fn stopped(error: FrameError) -> Polled {
    match error {
        FrameError::TooLong(_) => Polled::Stopped("too long", ErrorKind::InvalidData),
        FrameError::Malformed => Polled::Stopped("malformed", ErrorKind::InvalidData),
        FrameError::CutOff => Polled::Stopped("cut off", ErrorKind::UnexpectedEof),
        FrameError::HasNewline(_) | FrameError::EndsInReturn => {
            Polled::Stopped("no line", ErrorKind::InvalidData)
        }
        FrameError::Io(e) => Polled::Stopped("io", e.kind()),
    }
}
