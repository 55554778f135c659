//! Tests of readers, of buffers over them, and of the futures and methods of reading, where a case says too little.
mod asking;
mod asleep;
mod budgets;
mod buffered;
mod bytes;
mod closing;
mod cursors;
mod error_texts;
mod fill_buf;
mod methods;
mod polls;
mod read_to_end;
mod shown;
mod shrinking;
mod told;
mod waits;

use cursors::gives_both;
use futures_lite::Poll;
use futures_lite::io::{
    self, AsyncBufRead, AsyncRead, AsyncReadExt, AsyncWrite, BoxedReader, BoxedWriter, CountedRead,
    Cursor,
};
use lite_io_base::fill_slice;
use std::test::Fail;
use test_support::{finishes, gives, lends, try_write_both, write};

/// Asks for a rank by the bound alone, and hands the reader back.
fn ranked<R: CountedRead>(reader: R) -> R {
    reader.is_counted_read();
    reader
}

#[test]
fn take_and_chain_hand_their_readers_back(rt: HostRuntime) -> Result<(), Fail> {
    let mut first = ranked(Cursor::new(b"hello".as_slice()).take(4));
    assert!(rt; gives(&rt, &mut first, 3, b"hel")?);
    assert_eq!(rt; first.get_ref().position(), 3);
    assert_eq!(rt; first.into_inner().position(), 3);

    let mut both = ranked(Cursor::new(b"ab".as_slice()).chain(ranked(io::empty())));
    assert!(rt; gives(&rt, &mut both, 1, b"a")?);
    let (first, _second) = both.into_inner();
    assert_eq!(rt; first.position(), 1);
    Ok(())
}

/// Whether a reader gives `abc`, its last two bytes by a vectored read.
fn gives_abc<S: AsyncRead>(rt: &HostRuntime, reader: &mut S) -> io::Result<bool> {
    Ok(gives(rt, reader, 1, b"a")? && gives_both(rt, reader, (1, 1), b"b", b"c")?)
}

/// Whether a writer takes all that it is offered.
fn takes_all<S: AsyncWrite>(rt: &HostRuntime, writer: &mut S) -> io::Result<bool> {
    Ok(
        write(rt, writer, b"ab")? == Poll::Ready(Ok(2))
            && try_write_both(rt, writer, b"", b"c")? == Poll::Ready(Ok(1))
            && finishes(rt, writer)?,
    )
}

#[test]
fn slices_and_boxes_read(rt: HostRuntime) -> Result<(), Fail> {
    let mut slice = ranked(b"abcd".as_slice());
    assert!(rt; gives_both(&rt, &mut &mut slice, (1, 2), b"a", b"bc")?);
    assert!(rt; lends(&rt, &mut &mut slice, b"d")?);
    assert!(rt; !slice.is_empty());
    slice.consume(1);
    assert!(rt; gives(&rt, &mut slice, 1, b"")?);

    let letters = Vec::from_slice(rt.alloc(), b"abc")?;
    let mut reader: BoxedReader = Box::new(rt.alloc(), Cursor::new(letters))?;
    assert!(rt; gives_abc(&rt, &mut reader)?);
    let mut writer: BoxedWriter = Box::new(rt.alloc(), Cursor::new(Vec::new(rt.alloc())))?;
    assert!(rt; takes_all(&rt, &mut writer)?);
    Ok(())
}

#[test]
fn inner_readers_can_be_changed(rt: HostRuntime) -> Result<(), Fail> {
    let mut first = Cursor::new(b"hello".as_slice()).take(2);
    first.get_mut().set_position(3);
    assert!(rt; gives(&rt, &mut first, 9, b"lo")?);

    let mut both = Cursor::new(b"abc".as_slice()).chain(Cursor::new(b"def".as_slice()));
    let (one, two) = both.get_mut();
    one.set_position(2);
    two.set_position(1);
    assert_eq!(rt;
        (both.get_ref().0.position(), both.get_ref().1.position()),
        (2, 1)
    );
    assert!(rt; gives(&rt, &mut both, 9, b"c")?);
    both.second_mut().set_position(2);
    assert!(rt; gives(&rt, &mut both, 9, b"f")?);
    both.first_mut().set_position(0);
    assert!(rt; gives(&rt, &mut both, 9, b"")?);
    Ok(())
}

#[test]
fn a_slice_is_filled_as_far_as_it_has_room(rt: HostRuntime) -> Result<(), Fail> {
    let mut room = *b"-----";
    assert_eq!(rt; fill_slice(b"abc", &mut room), 3);
    assert_eq!(rt; room.as_slice(), b"abc--".as_slice());
    assert_eq!(rt; fill_slice(b"xyz", &mut room[3..4]), 1);
    assert_eq!(rt; room.as_slice(), b"abcx-".as_slice());
    assert_eq!(rt; fill_slice(b"", &mut room), 0);
    assert_eq!(rt; fill_slice(b"xyz", &mut []), 0);
    assert_eq!(rt; room.as_slice(), b"abcx-".as_slice());
    Ok(())
}
