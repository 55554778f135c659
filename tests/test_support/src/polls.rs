//! What polls of a stream answer, in a task of their own.
ghost use Rattle.std.specs.Prelude.{◌≡◌, IfOk, length, Some};
ghost use Rattle.futures.specs.declared.task.Poll.TheVariants.{Ready};

use futures::task::{Doorbell, Solo};
use lite_base::{Counted, Poll, Stream};
use lite_laws::run;
use std::alloc::AllocGlobal;
use std::io;
use std::random::RandomSource;

/// What `polls` polls of a stream answer, in a task of its own. An error is the system's: no memory, or no random bytes
/// for the task's name; fewer polls were made then, or none.
pub fn answers<R, S>(rt: &R, stream: &mut S, polls: usize) -> io::Result<Vec<Poll<Option<S::Item>>>>
where
    R: RandomSource + AllocGlobal,
    S: Stream<Item: Drop>,
    requires { S.can_poll stream.old }
    ensures ran { IfOk result (λ out. S.run stream.old out.items stream.new × (length out.items ≡ polls)) }
    ensures again { S.can_poll stream.new }
{
    let solo = Solo::new(rt, Doorbell::spinning())?;
    let mut out = Vec::new(rt.alloc());
    let mut cx = solo.begin();
    let ran = run(stream, &mut cx, polls, &mut out);
    cx.cancel();
    ran?;
    Ok(out)
}

/// Whether the task is woken: it may not sleep.
pub fn is_woken(solo: &Solo) -> bool {
    match solo.sleep() {
        Some(asleep) => {
            asleep.end();
            false
        }
        None => true,
    }
}

/// An answer that is an item.
pub fn item<T>(x: T) -> Poll<Option<T>>
    ensures { result ≡ Ready (Some x) }
{
    Poll::Ready(Some(x))
}

/// Asks for a rank by the bound alone, and hands the stream back.
pub fn ranked<S: Counted>(stream: S) -> S
    ensures { result ≡ stream }
{
    stream.is_counted();
    stream
}

/// Asks that a stream is firm, by the bound alone, and hands it back.
pub fn firm<S: Counted>(stream: S) -> S
    requires { S.ranks.firm stream }
    ensures { result ≡ stream }
{
    stream.is_counted();
    stream
}
