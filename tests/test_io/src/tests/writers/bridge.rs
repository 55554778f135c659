//! Marks over any reader of std, and over any writer of std, beside one another on one type.
ghost use Rattle.test_io.specs.Bridge.{Drains, Holds};
ghost use Rattle.test_io.specs.Laws.Bridge.{drains_laws, holds_laws};

use lite_base::{Context, Poll};
use lite_io_base::{AsyncRead, AsyncWrite, ReadSpec, WriteSpec};
use std::io::{self, Read, Write};
use std::test::Fail;
use test_support::{finishes, gives, write};

/// A reader or a writer of std that never waits.
#[derive(Drop)]
struct Bridge<T> {
    inner: T,
}

impl<T: Read> ReadSpec for Bridge<T> {
    ghost reads = { Drains (λ x. T.remaining x.inner) };

    ghost read_laws = { drains_laws (λ x. T.remaining x.inner) };
}

impl<T: Write> WriteSpec for Bridge<T> {
    ghost writes = { Holds (λ x. T.contents x.inner) };

    ghost write_laws = { holds_laws (λ x. T.contents x.inner) };
}

#[tactic(auto, using(crate::specs::Laws::Bridge::drained))]
impl<T: Read> AsyncRead for Bridge<T> {
    fn poll_read(&mut self, _cx: &mut Context<'_>, buf: &mut [u8]) -> Poll<io::Result<usize>> {
        Poll::Ready(self.inner.read(buf))
    }
}

#[tactic(auto, using(crate::specs::Laws::Bridge::held, crate::specs::Laws::Bridge::flushed_held, crate::specs::Laws::Bridge::closed_held))]
impl<T: Write> AsyncWrite for Bridge<T> {
    fn poll_write(&mut self, _cx: &mut Context<'_>, buf: &[u8]) -> Poll<io::Result<usize>> {
        Poll::Ready(self.inner.write(buf))
    }

    fn poll_flush(&mut self, _cx: &mut Context<'_>) -> Poll<io::Result<()>> {
        Poll::Ready(self.inner.flush())
    }

    fn poll_close(&mut self, _cx: &mut Context<'_>) -> Poll<io::Result<()>> {
        Poll::Ready(self.inner.flush())
    }
}

#[test]
fn readers_and_writers_of_std_have_properties(rt: HostRuntime) -> Result<(), Fail> {
    let mut reader = Bridge {
        inner: b"ab".as_slice(),
    };
    assert!(rt; gives(&rt, &mut reader, 1, b"a")?);
    assert!(rt; gives(&rt, &mut reader, 9, b"b")?);
    assert!(rt; gives(&rt, &mut reader, 9, b"")?);
    let mut writer = Bridge {
        inner: Vec::new(rt.alloc()),
    };
    assert_eq!(rt; write(&rt, &mut writer, b"ab")?, Poll::Ready(Ok(2)));
    assert!(rt; finishes(&rt, &mut writer)?);
    assert_eq!(rt; writer.inner.as_slice(), b"ab".as_slice());
    Ok(())
}
