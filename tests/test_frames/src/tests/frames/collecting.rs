use super::{Polled, encoded, frames_of, stopped};
use framed::{CollectError, FrameError, collect_frames};
use futures_lite::future::BlockOn;
use lite_mock::Marks;
use std::alloc::AllocError;
use std::io::ErrorKind;
use std::test::Fail;

const SENT: [&[u8]; 3] = [b"one", b"", b"three"];

#[test]
fn all_frames_are_collected_in_order(rt: HostRuntime) -> Result<(), Fail> {
    let input = encoded(rt.alloc(), &SENT)?;
    for size in 1..21 {
        let mut marks = Marks::new(rt.alloc());
        for piece in input.as_slice().chunks(size) {
            marks.chunk(piece)?;
        }
        let mut frames = frames_of(rt.alloc(), 5, marks)?;
        let mut on = BlockOn::new(&rt)?;
        let mut came = Vec::new(rt.alloc());
        match collect_frames(&mut on.waits(), &rt, &mut frames, &mut came) {
            Ok(()) => {
                assert_eq!(rt; came.len(), 3);
                for (frame, sent) in came.iter().zip(SENT) {
                    assert_eq!(rt; frame.as_slice(), sent);
                }
            }
            Err(CollectError::Memory(_)) => return Err(AllocError.into()),
            Err(CollectError::Input(FrameError::Io(e))) if e.kind() == ErrorKind::OutOfMemory => {
                return Err(AllocError.into());
            }
            Err(_) => return Err(Fail::from("the input has no error")),
        }
    }
    Ok(())
}

#[test]
fn the_frames_before_an_error_are_kept(rt: HostRuntime) -> Result<(), Fail> {
    let input = encoded(rt.alloc(), &SENT)?;
    let mut marks = Marks::new(rt.alloc());
    marks.chunk(&input.as_slice()[..18])?;
    let mut frames = frames_of(rt.alloc(), 64, marks)?;
    let mut on = BlockOn::new(&rt)?;
    let mut came = Vec::with_capacity(rt.alloc(), 3)?;
    match collect_frames(&mut on, &rt, &mut frames, &mut came) {
        Ok(()) => return Err(Fail::from("the last frame is cut off")),
        Err(CollectError::Memory(_)) => return Err(AllocError.into()),
        Err(CollectError::Input(FrameError::Io(e))) if e.kind() == ErrorKind::OutOfMemory => {
            return Err(AllocError.into());
        }
        Err(CollectError::Input(e)) => {
            assert_eq!(rt; came.len(), 2);
            assert_eq!(rt; came[0].as_slice(), SENT[0]);
            let cut_off = Polled::Stopped("cut off", ErrorKind::UnexpectedEof);
            assert_eq!(rt; stopped(e), cut_off);
        }
    }
    Ok(())
}
