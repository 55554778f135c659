use lite_base::{Future, Poll};
use std::io;
use std::io::ErrorKind;
use std::test::Fail;
use test_support::{by_kind, polled};

/// What the polls of a future answer up to its value, errors by their kinds.
pub(super) fn told<T, F>(
    rt: &HostRuntime,
    future: &mut F,
) -> Result<Vec<Poll<Result<T, ErrorKind>>>, Fail>
where
    T: Drop,
    F: Future<Output = io::Result<T>>,
    requires { F.can_poll future.old }
{
    let mut told = Vec::new(rt.alloc());
    for answer in polled(rt, future, 9)? {
        told.push(by_kind(answer))?;
    }
    Ok(told)
}
