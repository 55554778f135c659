//! The methods that the prelude brings.
use futures_lite::Poll;
use futures_lite::io::Cursor;
use futures_lite::prelude::*;
use futures_lite::stream::TryCollectFuture;
use std::io;
use std::io::IoSliceMut;
use std::test::Fail;
use test_support::polled;

/// The value of a future that is ready at once.
fn value<T, F>(rt: &HostRuntime, mut future: F) -> Result<T, Fail>
where
    T: Drop,
    F: Future<Output = io::Result<T>> + Drop,
    requires { F.can_poll future }
{
    for answer in polled(rt, &mut future, 1)? {
        if let Poll::Ready(value) = answer {
            return Ok(value?);
        }
    }
    Err(Fail::new("the future is pending"))
}

/// One read into some buffers.
fn read_into<'a, 'b, R: AsyncRead>(
    rt: &HostRuntime,
    reader: &'a mut R,
    bufs: &'a mut [IoSliceMut<'b>],
) -> Result<usize, Fail> {
    value(rt, reader.read_vectored(bufs))
}

#[test]
fn a_reader_is_read_by_each_method(rt: HostRuntime) -> Result<(), Fail> {
    let mut bytes: &[u8] = b"abcd\nefgh";
    let mut buf = [b'-'; 2];
    assert_eq!(rt; value(&rt, bytes.read(&mut buf))?, 2);
    assert_eq!(rt; buf, *b"ab");
    value(&rt, bytes.read_exact(&mut buf))?;
    assert_eq!(rt; buf, *b"cd");
    let mut rest = Vec::new(rt.alloc());
    assert_eq!(rt; value(&rt, bytes.read_until(b'\n', &mut rest))?, 1);
    assert_eq!(rt; value(&rt, bytes.fill_buf())?, b"efgh".as_slice());
    let mut one = [b'-'; 1];
    assert_eq!(rt;
        read_into(&rt, &mut bytes, &mut [IoSliceMut::new(&mut one)])?,
        1
    );
    assert_eq!(rt; one, *b"e");
    assert_eq!(rt; value(&rt, bytes.read_to_end(&mut rest))?, 3);
    assert_eq!(rt; rest.as_slice(), b"\nfgh".as_slice());
    Ok(())
}

#[test]
fn pieces_are_collected(rt: HostRuntime) -> Result<(), Fail> {
    let pieces = Cursor::new(b"lorem-ipsum-dolor".as_slice()).split(rt.alloc(), b'-');
    let mut collecting: TryCollectFuture<_, Vec<Vec<u8>>> = pieces.try_collect(rt.alloc());
    let Some(Poll::Ready(got)) = polled(&rt, &mut collecting, 1)?.pop() else {
        return Err(Fail::new("the future is pending"));
    };
    let got = got?;
    let [lorem, ipsum, dolor] = got.as_slice() else {
        return Err(Fail::new("there are not three pieces"));
    };
    assert_eq!(rt; lorem.as_slice(), b"lorem".as_slice());
    assert_eq!(rt; ipsum.as_slice(), b"ipsum".as_slice());
    assert_eq!(rt; dolor.as_slice(), b"dolor".as_slice());
    Ok(())
}

#[test]
fn a_read_without_room_takes_no_end_of_a_chain(rt: HostRuntime) -> Result<(), Fail> {
    let (first, second): (&[u8], &[u8]) = (b"ab", b"cd");
    let mut both = AsyncReadExt::chain(first, second);
    assert_eq!(rt;
        read_into(&rt, &mut both, &mut [IoSliceMut::new(&mut [])])?,
        0
    );
    let mut room = [b'-'; 4];
    assert_eq!(rt; value(&rt, both.read(&mut room))?, 2);
    assert_eq!(rt; room, *b"ab--");
    Ok(())
}
