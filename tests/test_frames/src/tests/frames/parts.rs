use super::{CODEC, Polled, encoded, frames_of, polled};
use framed::{FrameError, FramedParts, FramedRead};
use futures_lite::io::{AsyncBufRead, BufReader};
use lite_mock::Marks;
use std::alloc::AllocError;
use std::test::Fail;
use test_support::answers;

#[test]
fn the_bytes_of_an_open_frame_are_handed_back(rt: HostRuntime) -> Result<(), Fail> {
    let input = encoded(rt.alloc(), &[b"one", b"three"])?;
    for at in 0..input.len() {
        let mut marks = Marks::new(rt.alloc());
        marks.chunk(&input.as_slice()[..at])?;
        marks.pending()?;
        marks.chunk(&input.as_slice()[at..])?;
        let mut frames = frames_of(rt.alloc(), 64, marks)?;
        let polls = if at < 7 { 1 } else { 2 };
        for answer in answers(&rt, &mut frames, polls)? {
            polled(rt.alloc(), answer)?;
        }
        let parts = frames.into_parts();
        let begun = if at < 7 { 0 } else { 7 };
        assert_eq!(rt; parts.held.as_slice(), &input.as_slice()[begun..at]);
        assert_eq!(rt; parts.reader.buffer().len(), 0);
    }
    Ok(())
}

#[test]
fn before_a_frame_no_byte_is_held(rt: HostRuntime) -> Result<(), Fail> {
    let input = encoded(rt.alloc(), &[b"one", b"three"])?;
    let Ok(reader) = BufReader::new(rt.alloc(), input.as_slice()) else {
        return Err(AllocError.into());
    };
    let mut frames = FramedRead::new(rt.alloc(), reader, CODEC);
    for answer in answers(&rt, &mut frames, 1)? {
        polled(rt.alloc(), answer)?;
    }
    let parts = frames.into_parts();
    assert_eq!(rt; parts.held.as_slice(), b"".as_slice());
    assert_eq!(rt; parts.reader.buffer(), &input.as_slice()[7..]);
    Ok(())
}

#[test]
fn a_stream_goes_on_from_its_parts(rt: HostRuntime) -> Result<(), Fail> {
    let input = encoded(rt.alloc(), &[b"one", b"three"])?;
    for at in 0..input.len() {
        let mut frames = FramedRead::new(rt.alloc(), &input.as_slice()[..at], CODEC);
        let mut before = 0;
        for answer in answers(&rt, &mut frames, 2)? {
            if let Polled::Frame(_) = polled(rt.alloc(), answer)? {
                before += 1;
            }
        }
        let FramedParts { decoder, held, .. } = frames.into_parts();
        let reader = &input.as_slice()[at..];
        let parts = FramedParts {
            reader,
            decoder,
            held,
        };
        let Ok(mut frames) = FramedRead::from_parts(parts) else {
            return Err(Fail::from("no whole frame is held"));
        };
        let mut behind = 0;
        for answer in answers(&rt, &mut frames, 3)? {
            if let Polled::Frame(_) = polled(rt.alloc(), answer)? {
                behind += 1;
            }
        }
        assert_eq!(rt; before + behind, 2);
    }
    Ok(())
}

#[test]
fn frames_that_are_held_are_handed_out_one_by_one(rt: HostRuntime) -> Result<(), Fail> {
    let held = encoded(rt.alloc(), &[b"one", b"three"])?;
    let mut parts = FramedParts {
        reader: b"".as_slice(),
        decoder: CODEC,
        held,
    };
    for expected in [b"one".as_slice(), b"three".as_slice()] {
        match FramedRead::from_parts(parts) {
            Ok(_) => return Err(Fail::from("a frame is held")),
            Err(found) => {
                match found.frame {
                    Ok(frame) => assert_eq!(rt; frame.as_slice(), expected),
                    Err(FrameError::Io(_)) => return Err(AllocError.into()),
                    Err(_) => return Err(Fail::from("the frames are right")),
                }
                parts = found.parts;
            }
        }
    }
    assert!(rt; FramedRead::from_parts(parts).is_ok());
    Ok(())
}
