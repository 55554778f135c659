//! A half that is pending has registered what its stream has: a wait for it goes on. If a half forgot the waker, these tests would
//! not end.
ghost use Rattle.std.specs.Prelude.{◌≡◌, ⊤};

use futures_lite::future::block_on;
use futures_lite::io::{
    self, AsyncRead, CounterNames, Journal, NewCounters, ReadSpec, WriteSpec, split_journalled,
};
use futures_lite::{AsyncReadExt, Context, Poll};
use std::alloc::{AllocError, AllocGlobal};
use std::marker::Brand;
use std::random::RandomSource;
use std::sync::Wait;
use std::test::Fail;

/// A reader of the byte 7 that is pending before each byte, and wakes its task then.
#[derive(Clone, Drop)]
struct Paced {
    has_waited: bool,
}

impl ReadSpec for Paced {
    ghost reads = { λ _ _ _. ⊤ };

    ghost read_laws = { record { rests = λ x. tt; follows = λ x y z l m h k. tt } };
}

impl WriteSpec for Paced {
    ghost writes = { λ _ _ _. ⊤ };

    ghost write_laws = { record { rests = λ x. tt; follows = λ x y z l m h k. tt } };
}

impl AsyncRead for Paced {
    fn poll_read(&mut self, cx: &mut Context<'_>, buf: &mut [u8]) -> Poll<io::Result<usize>> {
        let Some(room) = buf.first_mut() else {
            return Poll::Ready(Ok(0));
        };
        self.has_waited = !self.has_waited;
        if self.has_waited {
            return cx.yield_now();
        }
        *room = 7;
        Poll::Ready(Ok(1))
    }
}

#[test]
fn a_wait_for_a_half_goes_on(rt: HostRuntime) -> Result<(), Fail> {
    let Ok((mut reader, _writer)) = io::split(rt, Paced { has_waited: false }) else {
        return Err(AllocError.into());
    };
    let mut room = [0; 3];
    block_on(&rt, reader.read_exact(&mut room))??;
    assert_eq!(rt; room, [7; 3]);
    Ok(())
}

fn waits_for_a_half<R, B>(rt: R, counters: NewCounters) -> Result<[u8; 3], Fail>
where
    R: Wait + RandomSource + AllocGlobal + Copy,
    B: CounterNames,
    requires { counters ≡ B.names }
{
    let Ok(journal) = Journal::new(rt.alloc(), Paced { has_waited: false }) else {
        return Err(AllocError.into());
    };
    let Ok((mut reader, _writer)) = split_journalled::<R, Paced, B>(rt, journal, counters) else {
        return Err(AllocError.into());
    };
    let mut room = [0; 3];
    block_on(&rt, reader.read_exact(&mut room))??;
    Ok(room)
}

#[test]
fn a_wait_for_a_journalled_half_goes_on(rt: HostRuntime) -> Result<(), Fail> {
    let room = waits_for_a_half::<HostRuntime, Brand>(rt, NewCounters::new())?;
    assert_eq!(rt; room, [7; 3]);
    Ok(())
}
