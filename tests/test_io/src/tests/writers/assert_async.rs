use futures::task::{Doorbell, Solo};
use lite_base::Poll;
use lite_bridge::AssertAsync;
use lite_io_base::{AsyncWrite, IoSlice};
use std::io::SeekFrom;
use std::test::Fail;
use std::{env, fs, process};
use test_support::{by_kind, seek, try_read, write};

#[test]
fn both_buffers_are_written(rt: HostRuntime) -> Result<(), Fail> {
    let solo = Solo::new(&rt, Doorbell::spinning())?;
    let mut cx = solo.begin();
    let mut writer = AssertAsync::new(Vec::new(rt.alloc()));
    let bufs = [IoSlice::new(b"ab"), IoSlice::new(b"c")];
    let written = by_kind(writer.poll_write_vectored(&mut cx, &bufs));
    cx.cancel();
    assert_eq!(rt; written, Poll::Ready(Ok(3)));
    writer.get_mut().push(b'd')?;
    assert_eq!(rt; writer.get_ref().as_slice(), b"abcd".as_slice());
    assert_eq!(rt; writer.into_inner().as_slice(), b"abcd".as_slice());
    Ok(())
}

#[test]
fn a_file_is_written_and_read_back(rt: HostRuntime) -> Result<(), Fail> {
    let mut path = env::temp_dir(&rt)?;
    path.push(format!(in rt.alloc(); "test_writers_{}", process::id(rt.process()))?.as_str())?;
    let mut writer = AssertAsync::new(fs::create(&rt, &path)?);
    let written = write(&rt, &mut writer, b"over and out")?;
    let mut reader = AssertAsync::new(fs::open(&rt, &path)?);
    let mut buf = [b'-'; 16];
    let sought = seek(&rt, &mut reader, SeekFrom::Start(5))?;
    let read = try_read(&rt, &mut reader, &mut buf)?;
    let at_end = try_read(&rt, &mut reader, &mut [0; 4])?;
    fs::remove_file(&rt, &path)?;
    assert_eq!(rt; written, Poll::Ready(Ok(12)));
    assert_eq!(rt; sought, Poll::Ready(Ok(5)));
    assert_eq!(rt; read, Poll::Ready(Ok(7)));
    assert!(rt; buf.starts_with(b"and out"));
    assert_eq!(rt; at_end, Poll::Ready(Ok(0)));
    Ok(())
}
