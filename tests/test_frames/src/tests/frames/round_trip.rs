use super::CODEC;
use bytes::BytesMut;
use framed::{
    CollectError, FrameError, FramedRead, LengthDelimited, LineDelimited, PromptDecoder, RoundTrip,
    collect_frames, wait_frame, wait_send_all,
};
use futures_lite::future::BlockOn;
use futures_lite::io::BufReader;
use lite_mock::Marks;
use std::alloc::{AllocError, AllocGlobal, Global};
use std::io::ErrorKind;
use std::process::Abort;
use std::random::RandomSource;
use std::sync::Wait;
use std::test::Fail;
use tokio_util::codec::{LinesCodec, LinesCodecError};

const TEXTS: [&str; 3] = ["one", "", "three"];

/// An error that says that memory was refused, as an error of the test.
fn refused(error: FrameError) -> Fail {
    match error {
        FrameError::Io(e) if e.kind() == ErrorKind::OutOfMemory => AllocError.into(),
        _ => Fail::from("no other error comes"),
    }
}

/// The texts, in a vector.
fn texts(alloc: Global) -> Result<Vec<&'static str>, Fail> {
    let mut texts = Vec::with_capacity(alloc, TEXTS.len())?;
    texts.extend_from_slice(&TEXTS)?;
    Ok(texts)
}

/// The texts as this codec writes them come back from it, wherever their bytes are cut.
fn come_back<R, C>(rt: &R, codec: C, written: &[u8]) -> Result<(), Fail>
where
    R: Wait + Abort + RandomSource + AllocGlobal,
    C: Copy + RoundTrip<&'static str, Decoder = C, Error = FrameError>,
    C: PromptDecoder<Item = BytesMut, Error = FrameError> + Drop,
{
    let mut on = BlockOn::new(rt)?;
    let (mut sent, mut out) = (Vec::new(rt.alloc()), BytesMut::new(rt.alloc()));
    let (mut encoder, texts) = (codec, texts(rt.alloc())?);
    if let Err(e) = wait_send_all(&mut on, rt, &mut sent, &mut encoder, texts, &mut out) {
        return Err(refused(e));
    }
    assert_eq!(rt; sent.as_slice(), written);
    for at in 0..sent.len() + 1 {
        let mut marks = Marks::new(rt.alloc());
        marks.chunk(&sent.as_slice()[..at])?;
        marks.chunk(&sent.as_slice()[at..])?;
        let Ok(reader) = BufReader::with_capacity(rt.alloc(), 64, marks) else {
            return Err(AllocError.into());
        };
        let mut frames = FramedRead::new(rt.alloc(), reader, codec);
        let mut came = Vec::new(rt.alloc());
        match collect_frames(&mut on, rt, &mut frames, &mut came) {
            Ok(()) => {
                assert_eq!(rt; came.len(), 3);
                for (frame, text) in came.iter().zip(TEXTS) {
                    assert_eq!(rt; frame.as_slice(), text.as_bytes());
                }
            }
            Err(CollectError::Memory(_)) => return Err(AllocError.into()),
            Err(CollectError::Input(e)) => return Err(refused(e)),
        }
    }
    Ok(())
}

#[test]
fn frames_come_back_wherever_they_are_cut(rt: HostRuntime) -> Result<(), Fail> {
    come_back(&rt, CODEC, b"\0\0\0\x03one\0\0\0\0\0\0\0\x05three")
}

#[test]
fn lines_come_back_wherever_they_are_cut(rt: HostRuntime) -> Result<(), Fail> {
    come_back(&rt, LineDelimited { max: 5 }, b"one\n\nthree\n")
}

#[test]
fn behind_a_refused_item_nothing_is_written(rt: HostRuntime) -> Result<(), Fail> {
    let mut on = BlockOn::new(&rt)?;
    let (mut sent, mut out) = (Vec::new(rt.alloc()), BytesMut::new(rt.alloc()));
    let (mut codec, texts) = (LengthDelimited { max: 4 }, texts(rt.alloc())?);
    match wait_send_all(&mut on, &rt, &mut sent, &mut codec, texts, &mut out) {
        Ok(()) => return Err(Fail::from("five bytes are too many")),
        Err(FrameError::TooLong(length)) => assert_eq!(rt; length, 5),
        Err(e) => return Err(refused(e)),
    }
    assert!(rt; sent.is_empty());
    Ok(())
}

#[test]
fn behind_a_line_without_a_newline_nothing_is_read(rt: HostRuntime) -> Result<(), Fail> {
    let mut on = BlockOn::new(&rt)?;
    let lines = LinesCodec::new_with_max_length(10);
    let mut lines = FramedRead::new(rt.alloc(), b"one\ntwo".as_slice(), lines);
    for reading in [true, false] {
        match wait_frame(&mut on, &rt, &mut lines) {
            Some(Ok(_)) => assert_eq!(rt; lines.is_reading(), reading),
            Some(Err(LinesCodecError::Io(e))) if e.kind() == ErrorKind::OutOfMemory => {
                return Err(AllocError.into());
            }
            _ => return Err(Fail::from("there are two lines")),
        }
    }
    assert!(rt; matches!(wait_frame(&mut on, &rt, &mut lines), None));
    assert!(rt; !lines.is_reading());
    Ok(())
}
