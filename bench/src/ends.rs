//! A writer that reads what it gets.
ghost use Rattle.futures_lite.specs.Own.{Anything, anything_reads, anything_writes};

use futures_lite::io::{AsyncWrite, WriteSpec, ReadSpec};
use futures_lite::{Context, Poll};
use std::io;

/// Takes all that is offered, and sums the first and the last byte of each write.
#[derive(Drop)]
pub(crate) struct Ends {
    pub(crate) sum: u64,
}

impl WriteSpec for Ends {
    ghost writes = { Anything };

    ghost write_laws = { anything_writes };
}

// It is not read from.
impl ReadSpec for Ends {
    ghost reads = { Anything };

    ghost read_laws = { anything_reads };
}

impl AsyncWrite for Ends {
    fn poll_write(&mut self, _cx: &mut Context<'_>, buf: &[u8]) -> Poll<io::Result<usize>> {
        if !buf.is_empty() {
            self.sum = self.sum.wrapping_add(buf[0] as u64);
            self.sum = self.sum.wrapping_add(buf[buf.len() - 1] as u64);
        }
        Poll::Ready(Ok(buf.len()))
    }

    fn poll_flush(&mut self, _cx: &mut Context<'_>) -> Poll<io::Result<()>> {
        Poll::Ready(Ok(()))
    }

    fn poll_close(&mut self, _cx: &mut Context<'_>) -> Poll<io::Result<()>> {
        Poll::Ready(Ok(()))
    }
}
