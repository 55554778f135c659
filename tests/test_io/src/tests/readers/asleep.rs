//! Calls on readers and writers wake no task by themselves while the reader or writer is pending.
ghost use Rattle.std.specs.Prelude.{⊤};
ghost use Rattle.futures_lite.specs.Own.{Anything, anything_reads, anything_writes};

use futures::task::{Doorbell, Solo, Source};
use futures_lite::io::{
    self as lite, AsyncBufReadExt, AsyncRead, AsyncReadExt, AsyncSeek, AsyncSeekExt, AsyncWrite,
    AsyncWriteExt, Budgeted, BufReader, BufWriter, ReadSpec, SeekFrom, WriteSpec,
};
use futures_lite::{Context, Future, Poll, StreamExt, future};
use std::alloc::{AllocError, AllocGlobal, Global};
use std::io::{self, IoSlice, IoSliceMut};
use std::random::RandomSource;
use std::test::Fail;
use test_support::{is_woken, write};

/// Is pending at each call, and wakes nothing.
#[derive(Drop)]
struct Still;

impl ReadSpec for Still {
    ghost reads = { Anything };

    ghost read_laws = { anything_reads };
}

impl WriteSpec for Still {
    ghost writes = { Anything };

    ghost write_laws = { anything_writes };
}

impl AsyncRead for Still {
    fn poll_read(&mut self, _cx: &mut Context<'_>, _buf: &mut [u8]) -> Poll<io::Result<usize>> {
        Poll::Pending
    }
}

impl AsyncWrite for Still {
    fn poll_write(&mut self, _cx: &mut Context<'_>, _buf: &[u8]) -> Poll<io::Result<usize>> {
        Poll::Pending
    }

    fn poll_flush(&mut self, _cx: &mut Context<'_>) -> Poll<io::Result<()>> {
        Poll::Pending
    }

    fn poll_close(&mut self, _cx: &mut Context<'_>) -> Poll<io::Result<()>> {
        Poll::Pending
    }
}

impl AsyncSeek for Still {
    ghost seeks = { λ _ _ _ _. ⊤ };

    fn poll_seek(&mut self, _cx: &mut Context<'_>, _pos: SeekFrom) -> Poll<io::Result<u64>> {
        Poll::Pending
    }
}

/// The next poll of the future, and whether it wakes the task.
fn poll_once<R, F>(rt: &R, future: &mut F) -> Result<(Poll<F::Output>, bool), Fail>
where
    R: RandomSource + AllocGlobal,
    F: Future<Output: Drop>,
    requires { F.can_poll future.old }
{
    let solo = Solo::new(rt, Doorbell::spinning())?;
    let source = Source::new();
    let mut slot = None;
    let mut cx = solo.begin();
    let answer = future.poll(&mut cx);
    let _: Poll<()> = cx.register(&source, &mut slot);
    cx.park();
    Ok((answer, is_woken(&solo)))
}

/// Whether the next poll of the future is pending, and wakes nothing.
fn waits_asleep<R, F>(rt: &R, mut future: F) -> Result<bool, Fail>
where
    R: RandomSource + AllocGlobal,
    F: Future<Output: Drop> + Drop,
    requires { F.can_poll future }
{
    let (answer, is_woken) = poll_once(rt, &mut future)?;
    Ok(answer.is_pending() && !is_woken)
}

/// The same of a call that asks for memory, whose refusal is the error.
fn waits_with_memory<R, F>(rt: &R, mut future: F) -> Result<bool, Fail>
where
    R: RandomSource + AllocGlobal,
    F: Future<Output = io::Result<usize>> + Drop,
    requires { F.can_poll future }
{
    match poll_once(rt, &mut future)? {
        (Poll::Ready(Err(e)), _) => Err(e.into()),
        (answer, is_woken) => Ok(answer.is_pending() && !is_woken),
    }
}

/// One that has a rank, and lends what it reads.
fn lender(alloc: Global) -> Result<BufReader<Budgeted<Still>>, AllocError> {
    match BufReader::with_capacity(alloc, 4, Still.with_budget(9)) {
        Ok(reader) => Ok(reader),
        Err(_) => Err(AllocError),
    }
}

/// A buffered writer that holds a byte.
fn holder(rt: &HostRuntime) -> Result<BufWriter<Still>, Fail> {
    let Ok(mut writer) = BufWriter::with_capacity(rt.alloc(), 4, Still) else {
        return Err(AllocError.into());
    };
    let _taken = write(rt, &mut writer, b"a")?;
    Ok(writer)
}

#[test]
fn a_waking_reader_is_seen(rt: HostRuntime) -> Result<(), Fail> {
    let waking = future::poll_fn(|cx: &mut Context<'_>| cx.yield_now::<()>());
    assert!(rt; !waits_asleep(&rt, waking)?);
    Ok(())
}

#[test]
fn a_pending_read_wakes_nothing(rt: HostRuntime) -> Result<(), Fail> {
    let (mut room, mut bytes, mut text) = ([0u8; 4], Vec::new(rt.alloc()), String::new(rt.alloc()));
    let mut ranked = Still.with_budget(9);
    let got = [
        waits_asleep(&rt, Still.read(&mut room))?,
        waits_asleep(
            &rt,
            Still.read_vectored(&mut [IoSliceMut::new(&mut [0u8; 2])]),
        )?,
        waits_asleep(&rt, Still.read_exact(&mut room))?,
        waits_with_memory(&rt, ranked.read_to_end(&mut bytes))?,
        waits_with_memory(&rt, ranked.read_to_string(&mut text))?,
        waits_asleep(&rt, ranked.read(&mut room))?,
        waits_asleep(&rt, Still.take(5).read(&mut room))?,
        waits_asleep(&rt, Still.chain(Still).read(&mut room))?,
        waits_asleep(&rt, lite::empty().chain(Still).read(&mut room))?,
        waits_asleep(&rt, Still.bytes().next())?,
        waits_asleep(&rt, Still.seek(SeekFrom::Start(0)))?,
    ];
    assert_eq!(rt; got, [true; 11]);
    Ok(())
}

#[test]
fn a_pending_lender_wakes_nothing(rt: HostRuntime) -> Result<(), Fail> {
    let (mut room, mut bytes, mut text) = ([0u8; 4], Vec::new(rt.alloc()), String::new(rt.alloc()));
    let mut reader = lender(rt.alloc())?;
    let got = [
        waits_asleep(&rt, reader.read(&mut room))?,
        waits_asleep(&rt, reader.fill_buf())?,
        waits_asleep(&rt, reader.read_until(b'-', &mut bytes))?,
        waits_asleep(&rt, reader.read_line(&mut text))?,
        waits_asleep(&rt, lender(rt.alloc())?.lines(rt.alloc()).next())?,
        waits_asleep(&rt, lender(rt.alloc())?.split(rt.alloc(), b'-').next())?,
        waits_asleep(&rt, lender(rt.alloc())?.take(5).fill_buf())?,
        waits_asleep(&rt, lender(rt.alloc())?.chain(lite::empty()).fill_buf())?,
        waits_asleep(&rt, lender(rt.alloc())?.with_budget(9).fill_buf())?,
    ];
    assert_eq!(rt; got, [true; 9]);
    Ok(())
}

#[test]
fn a_pending_write_wakes_nothing(rt: HostRuntime) -> Result<(), Fail> {
    let got = [
        waits_asleep(&rt, Still.write(b"a"))?,
        waits_asleep(&rt, Still.write_vectored(&[IoSlice::new(b"a")]))?,
        waits_asleep(&rt, Still.write_all(b"a"))?,
        waits_asleep(&rt, Still.flush())?,
        waits_asleep(&rt, Still.close())?,
        waits_asleep(&rt, holder(&rt)?.write(b"bcde"))?,
        waits_asleep(&rt, holder(&rt)?.flush())?,
        waits_asleep(&rt, holder(&rt)?.close())?,
        waits_asleep(&rt, holder(&rt)?.seek(SeekFrom::Start(0)))?,
    ];
    assert_eq!(rt; got, [true; 9]);
    Ok(())
}

#[test]
fn a_pending_copy_of_a_reader_wakes_nothing(rt: HostRuntime) -> Result<(), Fail> {
    let Ok(reading) = lite::copy(rt.alloc(), Still.with_budget(9), lite::sink()) else {
        return Err(AllocError.into());
    };
    let Ok(writing) = lite::copy(rt.alloc(), b"hello".as_slice(), Still) else {
        return Err(AllocError.into());
    };
    let Ok(flushing) = lite::copy(rt.alloc(), lite::empty(), Still) else {
        return Err(AllocError.into());
    };
    let got = [
        waits_asleep(&rt, reading)?,
        waits_asleep(&rt, writing)?,
        waits_asleep(&rt, flushing)?,
    ];
    assert_eq!(rt; got, [true; 3]);
    Ok(())
}
