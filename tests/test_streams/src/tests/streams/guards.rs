//! What counts drops: when a stream drops what it holds, or leaves out, no case can tell.
ghost use Rattle.futures_lite.specs.Own.{AnyValue, anything_future};

use futures_lite::{Context, Future, Poll, Stream};
use std::alloc::{AllocError, AllocGlobal, Global};
use std::cell::Cell;
use std::io;
use std::random::RandomSource;
use test_support::answers;

/// Counts its drop.
pub(crate) struct Guard<'a> {
    pub(crate) drops: &'a Cell<u8>,
}

impl Drop for Guard<'_> {
    fn drop(self) {
        let Guard { drops } = self;
        drops.set(drops.get().wrapping_add(1));
    }
}

pub(crate) fn guards(
    alloc: Global,
    drops: &Cell<u8>,
    count: usize,
) -> Result<Vec<Guard<'_>>, AllocError> {
    let mut all = Vec::new(alloc);
    for _ in 0..count {
        all.push(Guard { drops })?;
    }
    Ok(all)
}

/// A future that is pending so often, then has its value, and counts its drop.
#[derive(Drop)]
pub(crate) struct Guarded<'a, T: Copy> {
    pendings: u8,
    value: T,
    _guard: Guard<'a>,
}

impl<T: Copy> Future for Guarded<'_, T> {
    type Output = T;

    ghost run = { AnyValue };

    ghost laws = { anything_future };

    fn poll(&mut self, cx: &mut Context<'_>) -> Poll<T> {
        if self.pendings > 0 {
            self.pendings -= 1;
            return cx.yield_now();
        }
        Poll::Ready(self.value)
    }
}

pub(crate) fn make_guarded<T: Copy>(drops: &Cell<u8>, pendings: u8, value: T) -> Guarded<'_, T> {
    Guarded {
        pendings,
        value,
        _guard: Guard { drops },
    }
}

/// The answers of so many polls, each with how many drops there were by then.
pub(crate) fn with_drops<R, S>(
    rt: &R,
    drops: &Cell<u8>,
    stream: &mut S,
    polls: usize,
) -> io::Result<Vec<(Poll<Option<S::Item>>, u8)>>
where
    R: RandomSource + AllocGlobal,
    S: Stream<Item: Drop>,
    requires { S.can_poll stream.old }
{
    let mut all = Vec::new(rt.alloc());
    for _ in 0..polls {
        if let Some(answer) = answers(rt, stream, 1)?.pop() {
            all.push((answer, drops.get()))?;
        }
    }
    Ok(all)
}

pub(crate) const END: Poll<Option<u8>> = Poll::Ready(None);

/// How many items were dropped after two polls of the stream, which is still there.
pub(crate) fn dropped<R, S>(rt: &R, drops: &Cell<u8>, mut stream: S) -> io::Result<u8>
where
    R: RandomSource + AllocGlobal,
    S: Stream<Item: Drop> + Drop,
    requires { S.can_poll stream }
{
    drops.set(0);
    let _kept = answers(rt, &mut stream, 2)?;
    Ok(drops.get())
}
