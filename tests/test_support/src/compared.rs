//! Reads into room of their own, and what was read or lent beside what was wanted.
ghost use Rattle.std.specs.Prelude.{◌≡◌, IfErr, IfOk};
ghost use Rattle.std.specs.Bool.{Decides};
ghost use Rattle.test_support.specs.Calls.{GivesRead, HasGiven, LendsOf, ReadsRoom};

use crate::calls::{Answered, try_read};
use futures::task::{Doorbell, Solo};
use lite_base::Poll;
use lite_io_base::{AsyncBufRead, AsyncRead};
use std::alloc::AllocGlobal;
use std::io;
use std::random::RandomSource;

/// What one read into room for so many bytes answers, in a task of its own. An error is the system's: no memory or no
/// random bytes, and then nothing was read.
pub fn try_read_room<R, S>(rt: &R, reader: &mut S, room: usize) -> io::Result<Answered>
where
    R: RandomSource + AllocGlobal,
    S: AsyncRead,
    ensures ran { IfOk result (λ answer. ReadsRoom S.reads reader.old room answer reader.new) }
    ensures err { IfErr result (λ _. reader.new ≡ reader.old) }
{
    let mut buf = vec![in rt.alloc(); 0u8; room]?;
    try_read(rt, reader, buf.as_mut_slice())
}

/// Whether one read into room for so many bytes gives these bytes. An error as that of `try_read_room`.
pub fn gives<R, S>(rt: &R, reader: &mut S, room: usize, bytes: &[u8]) -> io::Result<bool>
where
    R: RandomSource + AllocGlobal,
    S: AsyncRead,
    ensures ran { IfOk result (λ is. GivesRead S.reads reader.old room is bytes.now reader.new) }
    ensures err { IfErr result (λ _. reader.new ≡ reader.old) }
{
    let mut buf = vec![in rt.alloc(); 0u8; room]?;
    let whole = buf.as_mut_slice();
    let answer = try_read(rt, reader, whole)?;
    Ok(has_given(&answer, whole, bytes))
}

fn has_given(answer: &Answered, buf: &[u8], bytes: &[u8]) -> bool
    ensures { Decides result (HasGiven answer.now buf.now bytes.now) }
{
    *answer == Poll::Ready(Ok(bytes.len())) && buf.starts_with(bytes)
}

/// Whether a fill lends these bytes, and the reader then has them to lend. An error as that of `try_read_room`.
pub fn lends<R, S>(rt: &R, reader: &mut S, bytes: &[u8]) -> io::Result<bool>
where
    R: RandomSource + AllocGlobal,
    S: AsyncBufRead,
    ensures ran { IfOk result (λ is. LendsOf S.reads S.buffer_of reader.old is bytes.now reader.new) }
    ensures err { IfErr result (λ _. reader.new ≡ reader.old) }
{
    let solo = Solo::new(rt, Doorbell::spinning())?;
    let mut cx = solo.begin();
    let is_lent = match reader.poll_fill_buf(&mut cx) {
        Poll::Ready(Ok(buffer_of)) => buffer_of == bytes,
        _ => false,
    };
    cx.cancel();
    Ok(is_lent && reader.buffer() == bytes)
}
