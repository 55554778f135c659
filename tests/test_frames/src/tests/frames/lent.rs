//! Frames that are lent.
use super::{CODEC, Polled, encoded};
use framed::{
    CutError, Cutter, Delimiter, Frames, FramesError, FramesParts, LengthDelimited, LineDelimited,
    find_delimiter_behind,
};
use futures::task::{Doorbell, Solo};
use futures_lite::Poll;
use futures_lite::io::{AsyncBufRead, BufReader, CountedRead};
use lite_mock::Marks;
use std::alloc::{AllocError, AllocGlobal, Global};
use std::io::ErrorKind;
use std::process::Abort;
use std::random::RandomSource;
use std::test::Fail;

const SENT: [&[u8]; 4] = [b"one", b"", b"three", b"\0\0\0\x01"];

/// The frames of this reader, through a buffer of so many bytes.
fn lent<C: Cutter>(
    alloc: Global,
    capacity: usize,
    marks: Marks,
    cutter: C,
) -> Result<Frames<BufReader<Marks>, C>, Fail>
where
    C: Drop,
{
    let Ok(reader) = BufReader::with_capacity(alloc, capacity, marks) else {
        return Err(AllocError.into());
    };
    Ok(Frames::new(alloc, reader, cutter))
}

fn stopped(error: FramesError<CutError>) -> Result<Polled, Fail> {
    match error {
        FramesError::NoFrame(CutError::TooLong(_)) => {
            Ok(Polled::Stopped("too long", ErrorKind::InvalidData))
        }
        FramesError::NoFrame(CutError::Malformed) => {
            Ok(Polled::Stopped("malformed", ErrorKind::InvalidData))
        }
        FramesError::NoFrame(CutError::CutOff) => {
            Ok(Polled::Stopped("cut off", ErrorKind::UnexpectedEof))
        }
        FramesError::OutOfMemory => Err(AllocError.into()),
        FramesError::Reader(kind) => Ok(Polled::Stopped("io", kind)),
    }
}

/// What one poll for a frame returned, with a copy of the frame.
fn next<R, T, C>(rt: &R, frames: &mut Frames<T, C>) -> Result<Polled, Fail>
where
    R: AllocGlobal + RandomSource,
    T: AsyncBufRead + CountedRead,
    C: Cutter<Error = CutError>,
    requires { T.ranks.counts frames.old.reader }
    ensures { T.ranks.counts frames.new.reader }
{
    let solo = Solo::new(rt, Doorbell::spinning())?;
    let mut cx = solo.begin();
    let answer = frames.poll_advance(&mut cx);
    cx.cancel();
    match answer {
        Poll::Pending => Ok(Polled::Pending),
        Poll::Ready(None) => Ok(Polled::Ended),
        Poll::Ready(Some(Ok(()))) => {
            Ok(Polled::Frame(Vec::from_slice(rt.alloc(), frames.frame())?))
        }
        Poll::Ready(Some(Err(e))) => stopped(e),
    }
}

/// Reads the frames through a buffer of this capacity, from readers that hand out chunks of each size.
fn frames_come<R: Abort + RandomSource + AllocGlobal + Copy>(
    rt: R,
    capacity: usize,
) -> Result<(), Fail> {
    let input = encoded(rt.alloc(), &SENT)?;
    for size in 1..30 {
        let mut marks = Marks::new(rt.alloc());
        for piece in input.as_slice().chunks(size) {
            marks.pending()?;
            marks.chunk(piece)?;
        }
        let mut frames = lent(rt.alloc(), capacity, marks, CODEC)?;
        let mut came = 0;
        for _ in 0..36 {
            match next(&rt, &mut frames)? {
                Polled::Pending => {}
                Polled::Frame(frame) => {
                    assert_eq!(rt; frame.as_slice(), SENT[came]);
                    came += 1;
                }
                other => assert_eq!(rt; (other, came), (Polled::Ended, 4)),
            }
        }
        assert_eq!(rt; came, 4);
    }
    Ok(())
}

#[test]
fn lent_frames_come_through_a_buffer_of_a_byte(rt: HostRuntime) -> Result<(), Fail> {
    frames_come(rt, 1)
}

#[test]
fn lent_frames_come_through_a_buffer_of_three_bytes(rt: HostRuntime) -> Result<(), Fail> {
    frames_come(rt, 3)
}

#[test]
fn lent_frames_come_through_a_buffer_of_all_bytes(rt: HostRuntime) -> Result<(), Fail> {
    frames_come(rt, 64)
}

#[test]
fn lines_that_come_byte_by_byte_are_lent(rt: HostRuntime) -> Result<(), Fail> {
    let mut marks = Marks::new(rt.alloc());
    for byte in b"one\r\n\nfour\n".chunks(1) {
        marks.chunk(byte)?;
        marks.pending()?;
    }
    let mut lines = lent(rt.alloc(), 8, marks, LineDelimited { max: 4 })?;
    let (mut came, mut pendings) = (Vec::new(rt.alloc()), 0);
    for _ in 0..15 {
        match next(&rt, &mut lines)? {
            Polled::Pending => pendings += 1,
            Polled::Frame(line) => came.push(line)?,
            other => assert_eq!(rt; other, Polled::Ended),
        }
    }
    assert_eq!(rt; (pendings, came.len()), (11, 3));
    for (line, expected) in came.iter().zip([b"one".as_slice(), b"", b"four"]) {
        assert_eq!(rt; line.as_slice(), expected);
    }
    Ok(())
}

#[test]
fn a_lent_line_that_is_too_long_is_final(rt: HostRuntime) -> Result<(), Fail> {
    let mut marks = Marks::new(rt.alloc());
    marks.chunk(b"ok\nfi")?;
    marks.chunk(b"fth\nmore\n")?;
    let mut lines = lent(rt.alloc(), 5, marks, LineDelimited { max: 4 })?;
    assert_eq!(rt;
        next(&rt, &mut lines)?,
        Polled::Frame(Vec::from_slice(rt.alloc(), b"ok")?)
    );
    assert!(rt; lines.is_reading());
    let too_long = Polled::Stopped("too long", ErrorKind::InvalidData);
    assert_eq!(rt; next(&rt, &mut lines)?, too_long);
    assert!(rt; !lines.is_reading());
    assert!(rt; lines.frame().is_empty());
    assert_eq!(rt; next(&rt, &mut lines)?, Polled::Ended);
    Ok(())
}

#[test]
fn a_lent_frame_may_be_cut_off_at_each_byte(rt: HostRuntime) -> Result<(), Fail> {
    let input = encoded(rt.alloc(), &SENT)?;
    for end in 0..input.len() {
        let mut marks = Marks::new(rt.alloc());
        marks.chunk(&input.as_slice()[..end])?;
        let mut frames = lent(rt.alloc(), 8, marks, CODEC)?;
        let whole = [7, 11, 20, 28].iter().filter(|at| **at <= end).count();
        for frame in SENT.iter().take(whole) {
            let expected = Polled::Frame(Vec::from_slice(rt.alloc(), frame)?);
            assert_eq!(rt; next(&rt, &mut frames)?, expected);
        }
        let expected = match end {
            0 | 7 | 11 | 20 => Polled::Ended,
            _ => Polled::Stopped("cut off", ErrorKind::UnexpectedEof),
        };
        assert_eq!(rt; next(&rt, &mut frames)?, expected);
        assert_eq!(rt; next(&rt, &mut frames)?, Polled::Ended);
    }
    Ok(())
}

#[test]
fn an_error_of_the_reader_is_handed_out_once(rt: HostRuntime) -> Result<(), Fail> {
    let input = encoded(rt.alloc(), &SENT)?;
    for at in 0..input.len() {
        let (first, second) = input.as_slice().split_at(at);
        let mut marks = Marks::new(rt.alloc());
        marks.chunk(first)?;
        marks.fault(ErrorKind::Other)?;
        marks.chunk(second)?;
        let mut frames = lent(rt.alloc(), 8, marks, CODEC)?;
        let whole = [7, 11, 20, 28].iter().filter(|end| **end <= at).count();
        for frame in SENT.iter().take(whole) {
            let expected = Polled::Frame(Vec::from_slice(rt.alloc(), frame)?);
            assert_eq!(rt; next(&rt, &mut frames)?, expected);
        }
        let failed = Polled::Stopped("io", ErrorKind::Other);
        assert_eq!(rt; next(&rt, &mut frames)?, failed);
        assert_eq!(rt;
            frames.take_error().map(|e| e.kind()),
            Some(ErrorKind::Other)
        );
        assert!(rt; frames.take_error().is_none());
        assert_eq!(rt; next(&rt, &mut frames)?, Polled::Ended);
    }
    Ok(())
}

#[test]
fn a_frame_in_the_readers_buffer_is_not_copied(rt: HostRuntime) -> Result<(), Fail> {
    let input = encoded(rt.alloc(), &SENT)?;
    let mut frames = Frames::new(rt.alloc(), input.as_slice(), CODEC);
    for (frame, end) in SENT.iter().zip([7, 11, 20, 28]) {
        let expected = Polled::Frame(Vec::from_slice(rt.alloc(), frame)?);
        assert_eq!(rt; next(&rt, &mut frames)?, expected);
        // Nothing behind the frame was taken, and there was no copy that would need room.
        let FramesParts {
            reader,
            cutter,
            held,
        } = frames.into_parts();
        assert_eq!(rt; reader, &input.as_slice()[end..]);
        assert_eq!(rt; held.capacity(), 0);
        frames = Frames::from_parts(FramesParts {
            reader,
            cutter,
            held,
        });
    }
    assert_eq!(rt; next(&rt, &mut frames)?, Polled::Ended);
    Ok(())
}

#[test]
fn frames_go_on_with_parts_at_each_place(rt: HostRuntime) -> Result<(), Fail> {
    let input = encoded(rt.alloc(), &SENT)?;
    for at in 0..=input.len() {
        let (first, second) = input.as_slice().split_at(at);
        let mut held = Vec::new(rt.alloc());
        held.extend_from_slice(first)?;
        let mut frames = Frames::from_parts(FramesParts {
            reader: second,
            cutter: CODEC,
            held,
        });
        for frame in SENT {
            let expected = Polled::Frame(Vec::from_slice(rt.alloc(), frame)?);
            assert_eq!(rt; next(&rt, &mut frames)?, expected);
        }
        assert_eq!(rt; next(&rt, &mut frames)?, Polled::Ended);
    }
    Ok(())
}

#[test]
fn a_frame_that_was_read_is_lent_without_a_read(rt: HostRuntime) -> Result<(), Fail> {
    let input = encoded(rt.alloc(), &[b"one", b"two", b"three"])?;
    let mut marks = Marks::new(rt.alloc());
    marks.chunk(&input.as_slice()[..16])?;
    marks.pending()?;
    marks.chunk(&input.as_slice()[16..])?;
    let mut frames = lent(rt.alloc(), 64, marks, CODEC)?;
    assert!(rt; frames.advance_in_hand().is_pending());
    assert_eq!(rt;
        next(&rt, &mut frames)?,
        Polled::Frame(Vec::from_slice(rt.alloc(), b"one")?)
    );
    assert!(rt; matches!(frames.advance_in_hand(), Poll::Ready(Some(Ok(())))));
    assert_eq!(rt; frames.frame(), b"two".as_slice());
    for _ in 0..2 {
        match frames.advance_in_hand() {
            Poll::Ready(Some(Err(FramesError::OutOfMemory))) => return Err(AllocError.into()),
            answer => assert!(rt; answer.is_pending()),
        }
    }
    assert_eq!(rt; next(&rt, &mut frames)?, Polled::Pending);
    let third = Polled::Frame(Vec::from_slice(rt.alloc(), b"three")?);
    assert_eq!(rt; next(&rt, &mut frames)?, third);
    Ok(())
}

#[test]
fn a_search_goes_on_behind_what_was_seen(rt: HostRuntime) -> Result<(), Fail> {
    let lines = LineDelimited { max: 100 };
    let codec = LengthDelimited { max: 9 };
    assert_eq!(rt;
        codec.cut(b"\0\0\0\x0a", 0),
        framed::Cut::Refused(CutError::TooLong(10))
    );
    assert_eq!(rt; codec.cut(b"\0\0\0", 0), framed::Cut::More(4));
    assert_eq!(rt; codec.cut(b"\0\0\0\x05abc", 4), framed::Cut::More(9));
    assert_eq!(rt; lines.cut(b"abc", 0), framed::Cut::More(4));
    assert_eq!(rt; lines.at_end(b"abc"), CutError::CutOff);
    let (colon, none) = (Delimiter::At(3), Delimiter::Missing);
    assert_eq!(rt; find_delimiter_behind(b"120:abc:", b':', 20, 2), colon);
    assert_eq!(rt; find_delimiter_behind(b"120", b':', 20, 3), none);
    assert_eq!(rt;
        find_delimiter_behind(b"120", b':', 2, 2),
        Delimiter::TooFar
    );
    Ok(())
}
