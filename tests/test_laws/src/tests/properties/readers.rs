//! Readers, and the futures over them.
use lite_base::{ArmedFuture, ArmedStream, CalmFuture, SteadyFuture};
use lite_bridge::Cursor;
use lite_buffered::{BufReader, make as io};
use lite_halves::Journal;
use lite_io_base::{ArmedRead, CalmRead, IoSliceMut, SteadyRead};
use lite_mock::Marks;
use lite_read::make::{
    bytes as each_byte, fill_buf, read, read_exact, read_line, read_to_end, read_to_string,
    read_vectored,
};
use nests_agree::reads::reads_agree;
use properties_met::readers::{buffered_readers_have_properties, journals_have_properties};
use std::alloc::AllocError;
use std::io::ErrorKind;
use std::test::Fail;

/// Asks for both marks of a reader.
fn both<R: SteadyRead + CalmRead>(reader: &R) {
    reader.is_steady_read();
    reader.is_calm_read();
}

/// Asks for both marks of a future.
fn both_future<F: SteadyFuture + CalmFuture>(future: &F) {
    future.is_steady_future();
    future.is_calm_future();
}

#[test]
fn readers_and_their_futures_are_steady_and_calm(rt: HostRuntime) -> Result<(), Fail> {
    let mut bytes: &[u8] = b"ab";
    both(&bytes);
    both(&&mut bytes);
    both(&io::empty());
    both(&io::repeat(7));
    both(&Cursor::new(bytes));
    both(&io::take(bytes, 1));
    both(&io::chain(bytes, bytes));
    both(&Marks::new(rt.alloc()));
    both(&each_byte(bytes));
    let Ok(reader) = BufReader::with_capacity(rt.alloc(), 4, bytes) else {
        return Err(AllocError.into());
    };
    both(&reader);
    both_future(&read_exact(&mut bytes, &mut [0]));
    both_future(&read_to_end(&mut bytes, &mut Vec::new(rt.alloc())));
    both_future(&read_line(&mut bytes, &mut String::new(rt.alloc())));
    both_future(&read_to_string(&mut bytes, &mut String::new(rt.alloc())));
    read(&mut bytes, &mut [0]).is_calm_future();
    Ok(())
}

#[test]
fn readers_and_what_is_over_them_are_armed(rt: HostRuntime) -> Result<(), Fail> {
    let mut bytes: &[u8] = b"ab";
    io::take(bytes, 1).is_armed_read();
    Cursor::new(bytes).is_armed_read();
    let Ok(mut reader) = BufReader::with_capacity(rt.alloc(), 4, bytes) else {
        return Err(AllocError.into());
    };
    reader.is_armed_read();
    (&mut reader).is_armed_read();
    fill_buf(&mut reader).is_armed_future();
    read(&mut reader, &mut [0]).is_armed_future();
    read_exact(&mut reader, &mut [0]).is_armed_future();
    read_to_end(&mut reader, &mut Vec::new(rt.alloc())).is_armed_future();
    read_line(&mut reader, &mut String::new(rt.alloc())).is_armed_future();
    read_to_string(&mut reader, &mut String::new(rt.alloc())).is_armed_future();
    each_byte(&mut bytes).is_armed_stream();
    Ok(())
}

fn calm_read_into<'a, 'b, R: CalmRead>(reader: &'a mut R, bufs: &'a mut [IoSliceMut<'b>]) {
    read_vectored(reader, bufs).is_calm_future();
}

#[test]
fn futures_of_some_reads_are_calm(_rt: HostRuntime) -> Result<(), Fail> {
    let mut bytes: &[u8] = b"ab";
    let mut room = [0; 2];
    calm_read_into(&mut bytes, &mut [IoSliceMut::new(&mut room)]);
    fill_buf(&mut bytes).is_calm_future();
    Ok(())
}

#[test]
fn buffered_readers_and_journals_are_steady_and_calm(rt: HostRuntime) -> Result<(), Fail> {
    let bytes: &[u8] = b"ab";
    let (first, second) = (
        BufReader::new(rt.alloc(), bytes),
        BufReader::new(rt.alloc(), bytes),
    );
    let (Ok(one), Ok(other)) = (first, second) else {
        return Err(AllocError.into());
    };
    buffered_readers_have_properties(&one, &other);
    let first: Result<Journal<Cursor<Vec<u8>>>, _> = Journal::new(
        rt.alloc(),
        Cursor::new(Vec::new(rt.alloc())),
    );
    let second = Journal::new(rt.alloc(), Cursor::new(Vec::new(rt.alloc())));
    let (Ok(one), Ok(other)) = (first, second) else {
        return Err(AllocError.into());
    };
    both(&one);
    journals_have_properties(&one, &other);
    Ok(())
}

#[test]
fn reads_after_pendings_agree(rt: HostRuntime) -> Result<(), Fail> {
    let mut one = Marks::new(rt.alloc());
    one.chunk(b"abcde")?;
    let mut late = Marks::new(rt.alloc());
    late.pending()?;
    late.chunk(b"ab")?;
    late.pending()?;
    late.chunk(b"cde")?;
    late.pending()?;
    let (mut got, mut got_late) = (Vec::new(rt.alloc()), Vec::new(rt.alloc()));
    got_late.push(b'>')?;
    let (n, late_n) = reads_agree(&rt, one, late, b"xyz", 7, &mut got, &mut got_late)?;
    assert_eq!(rt; (n?, late_n?), (7, 7));
    assert_eq!(rt; got.as_slice(), b"abcdexy".as_slice());
    assert_eq!(rt; got_late.as_slice(), b">abcdexy".as_slice());
    Ok(())
}

#[test]
fn bytes_before_an_error_agree(rt: HostRuntime) -> Result<(), Fail> {
    let mut one = Marks::new(rt.alloc());
    one.chunk(b"abcd")?;
    one.fault(ErrorKind::Other)?;
    let mut late = Marks::new(rt.alloc());
    late.pending()?;
    late.chunk(b"abcd")?;
    late.pending()?;
    late.fault(ErrorKind::Other)?;
    let (mut got, mut got_late) = (Vec::new(rt.alloc()), Vec::new(rt.alloc()));
    let (one, other) = reads_agree(&rt, one, late, b"xyz", 9, &mut got, &mut got_late)?;
    assert_eq!(rt; one.map_err(|e| e.kind()), Err(ErrorKind::Other));
    assert_eq!(rt; other.map_err(|e| e.kind()), Err(ErrorKind::Other));
    assert_eq!(rt; got.as_slice(), b"abcd".as_slice());
    assert_eq!(rt; got_late.as_slice(), b"abcd".as_slice());
    Ok(())
}
