//! When a buffered reader asks its inner reader, and for how much.
ghost use Rattle.futures_lite.specs.Own.{Anything, anything_reads};

use futures_lite::io::{AsyncBufRead, AsyncRead, BufReader, ReadSpec};
use futures_lite::{Context, Poll};
use std::alloc::AllocError;
use std::io;
use std::test::Fail;
use test_support::{gives, lends};

/// Gives `x` to each read, once, and knows how often it was asked and for how much at last.
#[derive(Drop)]
struct Asked {
    times: usize,
    room: usize,
}

impl ReadSpec for Asked {
    ghost reads = { Anything };

    ghost read_laws = { anything_reads };
}

impl AsyncRead for Asked {
    fn poll_read(&mut self, _cx: &mut Context<'_>, buf: &mut [u8]) -> Poll<io::Result<usize>> {
        self.times = self.times.saturating_add(1);
        self.room = buf.len();
        let Some(first) = buf.first_mut() else {
            return Poll::Ready(Ok(0));
        };
        *first = b'x';
        Poll::Ready(Ok(1))
    }
}

/// A buffered reader over one that was not asked yet.
fn unasked(rt: &HostRuntime, capacity: usize) -> Result<BufReader<Asked>, AllocError> {
    let inner = Asked { times: 0, room: 0 };
    BufReader::with_capacity(rt.alloc(), capacity, inner).map_err(|_| AllocError)
}

/// Whether the inner reader was asked so often, and for so much at last.
fn is_asked(reader: &BufReader<Asked>, times: usize, room: usize) -> bool {
    reader.get_ref().times == times && reader.get_ref().room == room
}

#[test]
fn a_fill_asks_once_where_nothing_is_there(rt: HostRuntime) -> Result<(), Fail> {
    let mut reader = unasked(&rt, 4)?;
    assert!(rt; lends(&rt, &mut reader, b"x")?);
    assert!(rt; is_asked(&reader, 1, 4));
    assert!(rt; lends(&rt, &mut reader, b"x")?);
    assert!(rt; is_asked(&reader, 1, 4));
    reader.consume(1);
    assert!(rt; lends(&rt, &mut reader, b"x")?);
    assert!(rt; is_asked(&reader, 2, 4));
    Ok(())
}

#[test]
fn without_a_capacity_each_fill_asks_for_nothing(rt: HostRuntime) -> Result<(), Fail> {
    let mut reader = unasked(&rt, 0)?;
    for times in 1..3 {
        assert!(rt; lends(&rt, &mut reader, b"")?);
        assert!(rt; is_asked(&reader, times, 0));
    }
    Ok(())
}

#[test]
fn a_read_with_room_for_a_buffer_passes_it(rt: HostRuntime) -> Result<(), Fail> {
    let mut reader = unasked(&rt, 4)?;
    assert!(rt; gives(&rt, &mut reader, 5, b"x")?);
    assert!(rt; is_asked(&reader, 1, 5));
    assert!(rt; gives(&rt, &mut reader, 3, b"x")?);
    assert!(rt; is_asked(&reader, 2, 4));
    Ok(())
}
