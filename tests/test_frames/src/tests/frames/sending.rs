use super::{CODEC, encoded};
use bytes::BytesMut;
use framed::{FrameError, FramedRead, LengthDelimited, encode_all, send, send_all};
use futures_lite::{StreamExt, future};
use std::alloc::{AllocError, Global};
use std::io::ErrorKind;
use std::test::Fail;

/// An error that says that memory was refused, as an error of the test.
fn refused(error: FrameError) -> Fail {
    match error {
        FrameError::Io(e) if e.kind() == ErrorKind::OutOfMemory => AllocError.into(),
        _ => Fail::from("no other error comes"),
    }
}

/// These texts, in a vector.
fn texts(alloc: Global, texts: &[&'static str]) -> Result<Vec<&'static str>, Fail> {
    let mut all = Vec::with_capacity(alloc, texts.len())?;
    all.extend_from_slice(texts)?;
    Ok(all)
}

#[test]
fn a_frame_is_written_once_the_future_is_polled(rt: HostRuntime) -> Result<(), Fail> {
    let (mut written, mut out) = (Vec::new(rt.alloc()), BytesMut::new(rt.alloc()));
    let mut codec = CODEC;
    let sending = send(&mut written, &mut codec, "hi", &mut out);
    if let Err(e) = future::block_on(&rt, sending)? {
        return Err(refused(e));
    }
    assert_eq!(rt; written.as_slice(), b"\0\0\0\x02hi".as_slice());
    Ok(())
}

#[test]
fn all_are_written_while_replies_are_read(rt: HostRuntime) -> Result<(), Fail> {
    let input = encoded(rt.alloc(), &[b"a", b"b"])?;
    let (mut written, mut out) = (Vec::new(rt.alloc()), BytesMut::new(rt.alloc()));
    let mut codec = CODEC;
    let mut replies = FramedRead::new(rt.alloc(), input.as_slice(), CODEC).take(2);
    let requests = send_all(
        &mut written,
        &mut codec,
        texts(rt.alloc(), &["one", ""])?,
        &mut out,
    );
    let counted = replies.try_fold(
        0,
        |count: usize, _frame: BytesMut| Ok::<usize, FrameError>(count + 1),
    );
    match future::block_on(&rt, future::zip(requests, counted))? {
        (Ok(()), Ok(came)) => assert_eq!(rt; came, 2),
        (Err(e), _) | (_, Err(e)) => return Err(refused(e)),
    }
    assert_eq!(rt; written.as_slice(), b"\0\0\0\x03one\0\0\0\0".as_slice());
    Ok(())
}

#[test]
fn a_sending_can_be_given_up(rt: HostRuntime) -> Result<(), Fail> {
    let (mut written, mut out) = (Vec::new(rt.alloc()), BytesMut::new(rt.alloc()));
    let mut codec = CODEC;
    let sending = send(&mut written, &mut codec, "hi", &mut out);
    let stopped = future::or(future::ready(Ok(())), sending);
    assert!(rt; future::block_on(&rt, stopped)?.is_ok());
    assert!(rt; written.is_empty());
    Ok(())
}

#[test]
fn a_refused_item_is_told_by_the_first_poll(rt: HostRuntime) -> Result<(), Fail> {
    let (mut written, mut out) = (Vec::new(rt.alloc()), BytesMut::new(rt.alloc()));
    let mut codec = LengthDelimited { max: 4 };
    let sending = send_all(
        &mut written,
        &mut codec,
        texts(rt.alloc(), &["one", "three"])?,
        &mut out,
    );
    match future::block_on(&rt, sending)? {
        Ok(()) => return Err(Fail::from("five bytes are too many")),
        Err(FrameError::TooLong(length)) => assert_eq!(rt; length, 5),
        Err(e) => return Err(refused(e)),
    }
    assert!(rt; written.is_empty());
    Ok(())
}

#[test]
fn behind_a_refused_item_no_frame_is_left(rt: HostRuntime) -> Result<(), Fail> {
    let mut out = BytesMut::copy_from_slice(rt.alloc(), b"what was there")?;
    let mut codec = LengthDelimited { max: 4 };
    match encode_all(&mut codec, texts(rt.alloc(), &["one", "three"])?, &mut out) {
        Ok(()) => return Err(Fail::from("five bytes are too many")),
        Err(FrameError::TooLong(length)) => assert_eq!(rt; length, 5),
        Err(e) => return Err(refused(e)),
    }
    assert!(rt; out.is_empty());
    Ok(())
}

#[test]
fn a_small_buffer_grows_for_a_frame(rt: HostRuntime) -> Result<(), Fail> {
    let mut out = BytesMut::with_capacity(rt.alloc(), 2)?;
    let mut codec = CODEC;
    match encode_all(&mut codec, texts(rt.alloc(), &["one"])?, &mut out) {
        Ok(()) => assert_eq!(rt; out.as_slice(), b"\0\0\0\x03one".as_slice()),
        Err(e) => return Err(refused(e)),
    }
    Ok(())
}
