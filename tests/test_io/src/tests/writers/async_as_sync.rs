use futures::task::{Doorbell, Solo};
use lite_base::{Context, Poll};
use lite_bridge::{AsyncAsSync, Cursor};
use lite_io_base::AsyncRead;
use std::io;
use std::io::{ErrorKind, Read, Seek, SeekFrom, Write};
use std::test::Fail;

/// The answer with its error's kind in place of the error.
fn kind<T>(answer: io::Result<T>) -> Result<T, ErrorKind> {
    match answer {
        Ok(x) => Ok(x),
        Err(e) => Err(e.kind()),
    }
}

#[test]
fn a_cursor_is_written_and_read(rt: HostRuntime) -> Result<(), Fail> {
    let solo = Solo::new(&rt, Doorbell::spinning())?;
    let mut cx = solo.begin();
    let mut handle = AsyncAsSync::new(&mut cx, Cursor::new(Vec::new(rt.alloc())));
    let written = kind(handle.write(b"xyz"));
    let flushed = kind(handle.flush());
    let sought = kind(handle.seek(SeekFrom::Start(1)));
    let mut buf = [b'-'; 4];
    let read = kind(handle.read(&mut buf));
    let closed = kind(handle.close());
    handle.as_mut().set_position(0);
    handle.borrow_mut().set_position(2);
    let position = handle
        .borrow()
        .position()
        .checked_add(handle.as_ref().position());
    drop(handle);
    cx.cancel();
    assert_eq!(rt; written, Ok(3));
    assert_eq!(rt; flushed, Ok(()));
    assert_eq!(rt; sought, Ok(1));
    assert_eq!(rt; read, Ok(2));
    assert_eq!(rt; buf, [b'y', b'z', b'-', b'-']);
    assert_eq!(rt; closed, Ok(()));
    assert_eq!(rt; position, Some(4));
    Ok(())
}

#[test]
fn a_closure_is_called_with_both(rt: HostRuntime) -> Result<(), Fail> {
    let solo = Solo::new(&rt, Doorbell::spinning())?;
    let mut cx = solo.begin();
    let mut handle = AsyncAsSync::new(&mut cx, b"ab".as_slice());
    let read = kind(handle.poll_with(|io: &mut &[u8], cx: &mut Context<'_>| {
        io.poll_read(cx, &mut [0; 1])
    }));
    let pending = kind(handle.poll_with(|_io: &mut &[u8], _cx: &mut Context<'_>| -> Poll<
        io::Result<u8>,
    > { Poll::Pending }));
    let left = handle.inner;
    cx.cancel();
    assert_eq!(rt; read, Ok(1));
    assert_eq!(rt; pending, Err(ErrorKind::WouldBlock));
    assert_eq!(rt; left, b"b".as_slice());
    Ok(())
}
