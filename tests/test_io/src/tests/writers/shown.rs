//! What writers, the futures of writing, and the bridges to std's traits show of themselves.
use super::buf_writer::buffered;
use futures::task::{Doorbell, Solo};
use lite_bridge::{AsyncAsSync, BlockOn, Cursor};
use lite_buffered::make::repeat;
use lite_write::make::{close, copy, flush, sink, write, write_all, write_vectored};
use std::alloc::AllocError;
use std::io::IoSlice;
use std::test::Fail;
use test_support::{shows, write as write_now};

#[test]
fn writers_show_what_they_hold(rt: HostRuntime) -> Result<(), Fail> {
    assert!(rt; shows(&rt, &sink(), "Sink")?);
    let mut writer = buffered(&rt, 4, sink())?;
    write_now(&rt, &mut writer, &[7, 8])?;
    assert!(rt; shows(&rt, &writer, "BufWriter { writer: Sink, buf: [7, 8] }")?);
    Ok(())
}

#[test]
fn futures_of_writing_show_what_they_hold(rt: HostRuntime) -> Result<(), Fail> {
    let mut writer = sink();
    assert!(rt;
        shows(
            &rt,
            &write(&mut writer, &[1, 2]),
            "WriteFuture { writer: Sink, buf: [1, 2] }",
        )?
    );
    let bufs = [IoSlice::new(&[1, 2]), IoSlice::new(&[3])];
    assert!(rt;
        shows(
            &rt,
            &write_vectored(&mut writer, &bufs),
            "WriteVectoredFuture { writer: Sink, bufs: [[1, 2], [3]] }",
        )?
    );
    assert!(rt;
        shows(
            &rt,
            &write_all(&mut writer, &[1, 2]),
            "WriteAllFuture { writer: Sink, buf: [1, 2] }",
        )?
    );
    assert!(rt; shows(&rt, &flush(&mut writer), "FlushFuture { writer: Sink }")?);
    assert!(rt; shows(&rt, &close(&mut writer), "CloseFuture { writer: Sink }")?);
    Ok(())
}

#[test]
fn a_copy_shows_what_it_holds(rt: HostRuntime) -> Result<(), Fail> {
    let Ok(copying) = copy(rt.alloc(), repeat(1), sink()) else {
        return Err(AllocError.into());
    };
    let reader = "BufReader { reader: Repeat { byte: 1 }, buffer: 0/8192 }";
    let parts = format!(in rt.alloc();
        "reader: {reader}, writer: Sink, amount: 0, phase: Copying"
    )?;
    let text = format!(in rt.alloc(); "CopyFuture {{ {parts} }}")?;
    assert!(rt; shows(&rt, &copying, text.as_str())?);
    Ok(())
}

#[test]
fn bridges_show_what_they_stand_on(rt: HostRuntime) -> Result<(), Fail> {
    let cursor = Cursor::new([1u8, 2]);
    assert!(rt;
        shows(
            &rt,
            &BlockOn::new(rt, cursor),
            "BlockOn(Cursor { inner: [1, 2], position: 0 })",
        )?
    );
    let solo = Solo::new(&rt, Doorbell::spinning())?;
    let mut cx = solo.begin();
    let is_shown = shows(
        &rt,
        &AsyncAsSync::new(&mut cx, sink()),
        "AsyncAsSync { inner: Sink, .. }",
    );
    cx.cancel();
    assert!(rt; is_shown?);
    Ok(())
}
