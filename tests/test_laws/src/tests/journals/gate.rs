ghost use Rattle.std.specs.Prelude.{◌≡◌};

use super::pipe::Pipe;
use futures::task::{Doorbell, Solo};
use futures_lite::Poll;
use futures_lite::io::{
    AsyncRead, AsyncWrite, CounterNames, Journal, NewCounters, history, split_journalled,
};
use std::alloc::AllocGlobal;
use std::marker::Brand;
use std::process::Abort;
use std::random::RandomSource;
use std::sync::{Barrier, Wait};
use std::test::Fail;
use std::thread;
use std::thread::Threads;

// How often a half is polled before the test fails.
const POLLS: u32 = 200_000;

/// Polls until two bytes were read. `None`: they never were.
fn read_both<R, S>(rt: &R, reader: &mut S) -> Option<[u8; 2]>
where
    R: RandomSource + AllocGlobal,
    S: AsyncRead,
{
    let solo = Solo::new(rt, Doorbell::spinning()).ok()?;
    let mut got = None;
    let mut buf = [0u8];
    for _ in 0..POLLS {
        let mut cx = solo.begin();
        let answer = reader.poll_read(&mut cx, &mut buf);
        cx.cancel();
        match (answer, got) {
            (Poll::Ready(Ok(1)), None) => got = Some(buf[0]),
            (Poll::Ready(Ok(1)), Some(first)) => return Some([first, buf[0]]),
            (Poll::Ready(_), _) => return None,
            (Poll::Pending, _) => thread::yield_now(),
        }
    }
    None
}

/// Polls until this byte was written. `false`: it never was.
fn write_byte<R, S>(rt: &R, writer: &mut S, byte: u8) -> bool
where
    R: RandomSource + AllocGlobal,
    S: AsyncWrite,
{
    let Ok(solo) = Solo::new(rt, Doorbell::spinning()) else {
        return false;
    };
    for _ in 0..POLLS {
        let mut cx = solo.begin();
        let answer = writer.poll_write(&mut cx, &[byte]);
        cx.cancel();
        match answer {
            Poll::Ready(Ok(1)) => return true,
            Poll::Ready(_) => return false,
            Poll::Pending => thread::yield_now(),
        }
    }
    false
}

fn through_the_pipe<R, B>(rt: R, journal: Journal<Pipe>, counters: NewCounters) -> Result<(), Fail>
where
    R: Threads + Wait + Abort + RandomSource + AllocGlobal + Copy + Send + Sync,
    B: CounterNames + Send + Sync,
    requires { counters ≡ B.names }
{
    let Ok((mut reader, mut writer)) = split_journalled::<R, Pipe, B>(rt, journal, counters) else {
        return Err(Fail::from("memory"));
    };
    let barrier = Barrier::new(2);
    let start = &barrier;
    let (read, written) = thread::join(
        &rt,
        move || {
            start.wait(&rt);
            (read_both(&rt, &mut reader), reader)
        },
        move || {
            start.wait(&rt);
            let first = write_byte(&rt, &mut writer, b'g');
            (first && write_byte(&rt, &mut writer, b'h'), writer)
        },
    );
    let (was_read, mut reader) = read;
    let (was_written, mut writer) = written;
    assert_eq!(rt; was_read, Some([b'g', b'h']));
    assert!(rt; was_written);
    assert_eq!(rt; (reader.bytes(), writer.bytes()), (2, 2));
    let told = history(&mut reader, &mut writer)?;
    assert_eq!(rt;
        told.entries().len() as u64,
        reader.calls().wrapping_add(writer.calls())
    );
    Ok(())
}

#[test]
fn neither_half_waits_until_the_other_is_done(rt: HostRuntime) -> Result<(), Fail> {
    let Ok(journal) = Journal::new(rt.alloc(), Pipe::new()) else {
        return Err(Fail::from("memory"));
    };
    through_the_pipe::<HostRuntime, Brand>(rt, journal, NewCounters::new())
}
