use super::{Polled, encoded, frames_of, polled};
use framed::FramedRead;
use futures_lite::io::AsyncReadExt;
use futures_lite::{StreamExt, future};
use lite_mock::Marks;
use std::alloc::AllocGlobal;
use std::io::ErrorKind;
use std::process::Abort;
use std::random::RandomSource;
use std::test::Fail;
use test_support::answers;

const SENT: [&[u8]; 4] = [b"one", b"", b"three", b"\0\0\0\x01"];

/// Reads the frames through a buffer of this capacity, from readers that hand out chunks of each size.
fn frames_come<R: Abort + RandomSource + AllocGlobal + Copy>(
    rt: R,
    capacity: usize,
) -> Result<(), Fail> {
    let input = encoded(rt.alloc(), &SENT)?;
    for size in 1..30 {
        let mut marks = Marks::new(rt.alloc());
        for piece in input.as_slice().chunks(size) {
            marks.pending()?;
            marks.chunk(piece)?;
        }
        let mut frames = frames_of(rt.alloc(), capacity, marks)?;
        let mut came = 0;
        for answer in answers(&rt, &mut frames, 36)? {
            match polled(rt.alloc(), answer)? {
                Polled::Pending => {}
                Polled::Frame(frame) => {
                    assert_eq!(rt; frame.as_slice(), SENT[came]);
                    came += 1;
                }
                other => assert_eq!(rt; (other, came), (Polled::Ended, 4)),
            }
        }
        assert_eq!(rt; came, 4);
    }
    Ok(())
}

// (a test for each capacity, since tools/refuse-memory runs each once for each request for memory)
#[test]
fn the_frames_come_through_a_buffer_of_a_byte(rt: HostRuntime) -> Result<(), Fail> {
    frames_come(rt, 1)
}

#[test]
fn the_frames_come_through_a_buffer_of_three_bytes(rt: HostRuntime) -> Result<(), Fail> {
    frames_come(rt, 3)
}

#[test]
fn the_frames_come_through_a_buffer_of_all_bytes(rt: HostRuntime) -> Result<(), Fail> {
    frames_come(rt, 64)
}

#[test]
fn it_is_pending_as_often_as_the_reader(rt: HostRuntime) -> Result<(), Fail> {
    let input = encoded(rt.alloc(), &SENT)?;
    let mut marks = Marks::new(rt.alloc());
    for piece in input.as_slice().chunks(5) {
        marks.chunk(piece)?;
        marks.pending()?;
    }
    let mut frames = frames_of(rt.alloc(), 2, marks)?;
    let (mut pendings, mut others) = (0, 0);
    for answer in answers(&rt, &mut frames, 11)? {
        match polled(rt.alloc(), answer)? {
            Polled::Pending => pendings += 1,
            _ => others += 1,
        }
    }
    // 27 bytes in pieces of 5.
    assert_eq!(rt; (pendings, others), (6, 5));
    Ok(())
}

#[test]
fn an_error_of_the_reader_comes_at_each_place_and_is_final(rt: HostRuntime) -> Result<(), Fail> {
    let input = encoded(rt.alloc(), &SENT)?;
    for at in 0..input.len() {
        let (first, second) = input.as_slice().split_at(at);
        let mut marks = Marks::new(rt.alloc());
        marks.chunk(first)?;
        marks.fault(ErrorKind::Other)?;
        marks.chunk(second)?;
        let mut frames = frames_of(rt.alloc(), 8, marks)?;
        let (mut came, mut failed) = (0, false);
        for answer in answers(&rt, &mut frames, 7)? {
            match polled(rt.alloc(), answer)? {
                Polled::Frame(frame) => {
                    assert_eq!(rt; frame.as_slice(), SENT[came]);
                    came += 1;
                }
                Polled::Stopped("io", ErrorKind::Other) if !failed => failed = true,
                other => assert_eq!(rt; (other, failed), (Polled::Ended, true)),
            }
        }
        let whole = [7, 11, 20, 28].iter().filter(|end| **end <= at).count();
        assert_eq!(rt; (came, failed), (whole, true));
    }
    Ok(())
}

#[test]
fn nothing_behind_a_frame_is_taken(rt: HostRuntime) -> Result<(), Fail> {
    let input = encoded(rt.alloc(), &SENT)?;
    let mut reader = input.as_slice();
    for (frame, end) in SENT.iter().zip([7, 11, 20, 28]) {
        let mut frames = FramedRead::new(rt.alloc(), &mut reader, super::CODEC);
        let came = future::block_on(&rt, frames.next())?;
        let came = polled(rt.alloc(), futures_lite::Poll::Ready(came))?;
        assert_eq!(rt; came, Polled::Frame(Vec::from_slice(rt.alloc(), frame)?));
        assert_eq!(rt; reader, &input.as_slice()[end..]);
    }
    Ok(())
}

#[test]
fn another_call_goes_on_behind_a_frame(rt: HostRuntime) -> Result<(), Fail> {
    let mut input = encoded(rt.alloc(), &[b"head"])?;
    input.extend_from_slice(b"and a text")?;
    let mut reader = input.as_slice();
    let mut frames = FramedRead::new(rt.alloc(), &mut reader, super::CODEC);
    let head = polled(
        rt.alloc(),
        futures_lite::Poll::Ready(future::block_on(&rt, frames.next())?),
    )?;
    assert_eq!(rt; head, Polled::Frame(Vec::from_slice(rt.alloc(), b"head")?));
    let mut text = [0u8; 10];
    future::block_on(&rt, reader.read_exact(&mut text))??;
    assert_eq!(rt; text.as_slice(), b"and a text".as_slice());
    Ok(())
}
