use super::{Polled, encoded, frames_of, polled};
use lite_mock::Marks;
use std::io::ErrorKind;
use std::test::Fail;
use test_support::answers;

#[test]
fn a_frame_that_was_read_is_in_hand(rt: HostRuntime) -> Result<(), Fail> {
    let input = encoded(rt.alloc(), &[b"one", b"two", b"three"])?;
    let mut marks = Marks::new(rt.alloc());
    marks.chunk(&input.as_slice()[..16])?;
    marks.pending()?;
    marks.chunk(&input.as_slice()[16..])?;
    let mut frames = frames_of(rt.alloc(), 64, marks)?;
    assert_eq!(rt; polled(rt.alloc(), frames.in_hand())?, Polled::Pending);

    let mut first = answers(&rt, &mut frames, 1)?;
    let Some(first) = first.pop() else {
        return Err(Fail::from("one poll has one answer"));
    };
    assert_eq!(rt;
        polled(rt.alloc(), first)?,
        Polled::Frame(Vec::from_slice(rt.alloc(), b"one")?)
    );
    assert_eq!(rt;
        polled(rt.alloc(), frames.in_hand())?,
        Polled::Frame(Vec::from_slice(rt.alloc(), b"two")?)
    );
    for _ in 0..2 {
        assert_eq!(rt; polled(rt.alloc(), frames.in_hand())?, Polled::Pending);
    }
    let came = [
        Polled::Pending,
        Polled::Frame(Vec::from_slice(rt.alloc(), b"three")?),
        Polled::Ended,
    ];
    for (answer, expected) in answers(&rt, &mut frames, 3)?.into_iter().zip(came) {
        assert_eq!(rt; polled(rt.alloc(), answer)?, expected);
    }
    assert_eq!(rt; polled(rt.alloc(), frames.in_hand())?, Polled::Ended);
    Ok(())
}

#[test]
fn a_refusal_that_was_read_is_in_hand_and_final(rt: HostRuntime) -> Result<(), Fail> {
    let mut input = encoded(rt.alloc(), &[b"one"])?;
    input.extend_from_slice(b"\0\0\0\x65and more")?;
    let mut marks = Marks::new(rt.alloc());
    marks.chunk(input.as_slice())?;
    let mut frames = frames_of(rt.alloc(), 64, marks)?;
    for answer in answers(&rt, &mut frames, 1)? {
        assert_eq!(rt;
            polled(rt.alloc(), answer)?,
            Polled::Frame(Vec::from_slice(rt.alloc(), b"one")?)
        );
    }
    let refused = Polled::Stopped("too long", ErrorKind::InvalidData);
    assert_eq!(rt; polled(rt.alloc(), frames.in_hand())?, refused);
    assert_eq!(rt; polled(rt.alloc(), frames.in_hand())?, Polled::Ended);
    for answer in answers(&rt, &mut frames, 2)? {
        assert_eq!(rt; polled(rt.alloc(), answer)?, Polled::Ended);
    }
    Ok(())
}
