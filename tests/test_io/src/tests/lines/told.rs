ghost use Rattle.std.specs.Prelude.{◌≡◌};

use lite_base::{OkCounted, Poll, Stream};
use std::io;
use std::io::ErrorKind;
use std::test::Fail;
use test_support::answers;

/// Takes the first error of this kind out of what was told, and answers how many items stand before it.
pub(super) fn take_error<T: Drop>(
    told: &mut Vec<Option<Result<T, ErrorKind>>>,
    kind: ErrorKind,
) -> Option<usize> {
    let at = place_of(told.as_slice(), kind)?;
    if at < told.len() {
        told.remove(at);
    }
    Some(at)
}

/// Where the first error of this kind stands.
fn place_of<T>(told: &[Option<Result<T, ErrorKind>>], kind: ErrorKind) -> Option<usize> {
    for i in 0..told.len() {
        if matches!(&told[i], Some(Err(k)) if *k == kind) {
            return Some(i);
        }
    }
    None
}

/// What so many polls of a stream answer, without their pendings, and errors by their kinds.
pub(super) fn told<T, S>(
    rt: &HostRuntime,
    stream: &mut S,
    polls: usize,
) -> Result<Vec<Option<Result<T, ErrorKind>>>, Fail>
where
    T: Drop,
    S: Stream<Item = io::Result<T>>,
    requires { S.can_poll stream.old }
{
    let mut told = Vec::new(rt.alloc());
    for answer in answers(rt, stream, polls)? {
        match answer {
            Poll::Pending => {}
            Poll::Ready(None) => told.push(None)?,
            Poll::Ready(Some(Ok(item))) => told.push(Some(Ok(item)))?,
            Poll::Ready(Some(Err(e))) => told.push(Some(Err(e.kind())))?,
        }
    }
    Ok(told)
}

/// Asks for a rank by the bound alone, and hands the stream back.
pub(super) fn ok_ranked<S: OkCounted>(stream: S) -> S
    ensures { result ≡ stream }
{
    stream.is_ok_counted();
    stream
}
