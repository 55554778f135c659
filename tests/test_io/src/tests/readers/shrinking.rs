//! A vectored read of a chain whose first reader ends and leaves less room in the buffers than there was.
ghost use Rattle.futures_lite.specs.Own.{Anything, anything_reads};

use super::cursors::gives_both;
use futures_lite::io::{AsyncRead, AsyncReadExt, Cursor, ReadSpec};
use futures_lite::{Context, Poll};
use std::io;
use std::io::IoSliceMut;
use std::test::Fail;

/// A reader at its end, which takes the room of all buffers but the last.
#[derive(Drop)]
struct Shrinks;

impl ReadSpec for Shrinks {
    ghost reads = { Anything };

    ghost read_laws = { anything_reads };
}

impl AsyncRead for Shrinks {
    fn poll_read(&mut self, _cx: &mut Context<'_>, _buf: &mut [u8]) -> Poll<io::Result<usize>> {
        Poll::Ready(Ok(0))
    }

    fn poll_read_vectored(
        &mut self,
        _cx: &mut Context<'_>,
        bufs: &mut [IoSliceMut<'_>],
    ) -> Poll<io::Result<usize>> {
        let last = bufs.len().saturating_sub(1);
        for buf in &mut bufs[..last] {
            *buf = IoSliceMut::new(&mut []);
        }
        Poll::Ready(Ok(0))
    }
}

#[test]
fn a_chain_stores_its_byte_in_the_room_that_is_left(rt: HostRuntime) -> Result<(), Fail> {
    let mut both = Shrinks.chain(Cursor::new(b"xy".as_slice()));
    // One byte came, into the second buffer.
    assert!(rt; gives_both(&rt, &mut both, (2, 2), b"", b"x")?);
    assert!(rt; gives_both(&rt, &mut both, (2, 2), b"y", b"")?);
    Ok(())
}
