ghost use Rattle.futures_lite.specs.Own.{Anything, anything_reads};

use super::polls::told;
use bumpalo::Bump;
use futures_lite::future;
use futures_lite::io::{AsyncRead, AsyncReadExt, ReadSpec};
use lite_base::{Context, Poll};
use lite_mock::Marks;
use lite_read::make::{read_exact, read_to_end};
use std::alloc::Global;
use std::cell::Cell;
use std::io;
use std::io::ErrorKind;
use std::test::Fail;

#[test]
fn a_refused_growth_keeps_what_was_read(rt: HostRuntime) -> Result<(), Fail> {
    let bump = Bump::new(rt.alloc());
    bump.set_allocation_limit(Some(4096));
    let mut marks = Marks::new(rt.alloc());
    marks.chunk(vec![in rt.alloc(); b'e'; 8000]?.as_slice())?;
    let mut buf: Vec<u8, &Bump<Global>> = Vec::new(&bump);
    let answers = told(&rt, &mut read_to_end(&mut marks, &mut buf))?;
    assert_eq!(rt;
        answers,
        vec![in rt.alloc(); Poll::Ready(Err(ErrorKind::OutOfMemory))]?
    );
    if buf.is_empty() {
        return Err(Fail::from("no memory for a first piece"));
    }
    let left = 8000_usize.saturating_sub(buf.len());
    let mut rest = Vec::new(rt.alloc());
    let answers = told(&rt, &mut read_to_end(&mut marks, &mut rest))?;
    assert_eq!(rt; answers, vec![in rt.alloc(); Poll::Ready(Ok(left))]?);
    assert!(rt; buf.iter().chain(rest.iter()).all(|byte| *byte == b'e'));
    Ok(())
}

#[test]
fn a_refused_growth_loses_nothing(rt: HostRuntime) -> Result<(), Fail> {
    let bump = Bump::new(rt.alloc());
    bump.set_allocation_limit(Some(0));
    let mut marks = Marks::new(rt.alloc());
    marks.fault(ErrorKind::Other)?;
    let mut buf: Vec<u8, &Bump<Global>> = Vec::new(&bump);
    let answers = told(&rt, &mut read_to_end(&mut marks, &mut buf))?;
    assert_eq!(rt;
        answers,
        vec![in rt.alloc(); Poll::Ready(Err(ErrorKind::OutOfMemory))]?
    );
    assert_eq!(rt; buf.len(), 0);
    let answers = told(&rt, &mut read_exact(&mut marks, &mut [0]))?;
    assert_eq!(rt;
        answers,
        vec![in rt.alloc(); Poll::Ready(Err(ErrorKind::Other))]?
    );
    Ok(())
}

/// A reader of these bytes that counts its calls.
#[derive(Drop)]
struct Tallied<'a> {
    bytes: &'a [u8],
    calls: &'a Cell<usize>,
}

impl ReadSpec for Tallied<'_> {
    ghost reads = { Anything };

    ghost read_laws = { anything_reads };
}

impl AsyncRead for Tallied<'_> {
    fn poll_read(&mut self, cx: &mut Context<'_>, buf: &mut [u8]) -> Poll<io::Result<usize>> {
        self.calls.set(self.calls.get().wrapping_add(1));
        self.bytes.poll_read(cx, buf)
    }
}

#[test]
fn the_room_grows_in_steps(rt: HostRuntime) -> Result<(), Fail> {
    let calls = Cell::new(0);
    let all = [b'e'; 1000];
    let tallied = Tallied {
        bytes: all.as_slice(),
        calls: &calls,
    };
    let (mut reader, mut out) = (tallied.with_budget(2000), Vec::new(rt.alloc()));
    let read = future::block_on(&rt, AsyncReadExt::read_to_end(&mut reader, &mut out))??;
    assert_eq!(rt; (read, out.len()), (1000, 1000));
    assert!(rt; calls.get() < 10);
    Ok(())
}
