//! Writers, and the futures over them.
ghost use Rattle.std.specs.Prelude.{◌≡◌, [], IfOk};

use lite_base::{ArmedFuture, CalmFuture, SteadyFuture};
use lite_bridge::Cursor;
use lite_buffered::{BufReader, BufWriter};
use lite_halves::Journal;
use lite_io_base::{ArmedWrite, CalmWrite, IoSlice, SteadyWrite};
use lite_mock::{Marks, Order, Takes};
use lite_write::make::{close, copy, flush, sink, write, write_all, write_vectored};
use nests_agree::writes::{copies_agree, writes_agree};
use properties_met::writers::{adapters_have_properties, journals_write_with_properties};
use std::alloc::AllocError;
use std::test::Fail;

/// Asks for both marks of a writer.
fn both<W: SteadyWrite + CalmWrite>(writer: &W) {
    writer.is_steady_write();
    writer.is_calm_write();
}

/// Asks for both marks of a future.
fn both_future<F: SteadyFuture + CalmFuture>(future: &F) {
    future.is_steady_future();
    future.is_calm_future();
}

#[test]
fn writers_and_their_futures_are_armed(rt: HostRuntime) -> Result<(), Fail> {
    let bytes: Vec<u8> = Vec::new(rt.alloc());
    let Ok(mut writer) = BufWriter::with_capacity(rt.alloc(), 4, bytes) else {
        return Err(AllocError.into());
    };
    writer.is_armed_write();
    sink().is_armed_write();
    write(&mut writer, b"ab").is_armed_future();
    write_all(&mut writer, b"ab").is_armed_future();
    flush(&mut writer).is_armed_future();
    close(&mut writer).is_armed_future();
    Ok(())
}

#[test]
fn writers_and_their_futures_are_steady_and_calm(rt: HostRuntime) -> Result<(), Fail> {
    let mut bytes: Vec<u8> = Vec::new(rt.alloc());
    both(&bytes);
    both(&&mut bytes);
    both(&sink());
    both(&Takes::new(rt.alloc()));
    both(&Cursor::new(&mut bytes));
    both(&Cursor::new(bytes));
    let mut room = [0; 2];
    let slice: &mut [u8] = &mut room;
    both(&Cursor::new(slice));
    let Ok(writer) = BufWriter::with_capacity(rt.alloc(), 4, Takes::new(rt.alloc())) else {
        return Err(AllocError.into());
    };
    both(&writer);
    let mut bytes: Vec<u8> = Vec::new(rt.alloc());
    both_future(&write_all(&mut bytes, b"ab"));
    let text: &[u8] = b"ab";
    let Ok(copied) = copy(rt.alloc(), text, bytes) else {
        return Err(AllocError.into());
    };
    both_future(&copied);
    Ok(())
}

#[test]
fn journals_are_steady_and_calm_writers(rt: HostRuntime) -> Result<(), Fail> {
    let first: Result<Journal<Cursor<Vec<u8>>>, _> = Journal::new(
        rt.alloc(),
        Cursor::new(Vec::new(rt.alloc())),
    );
    let second = Journal::new(rt.alloc(), Cursor::new(Vec::new(rt.alloc())));
    let (Ok(one), Ok(other)) = (first, second) else {
        return Err(AllocError.into());
    };
    both(&one);
    journals_write_with_properties(&one, &other);
    Ok(())
}

#[test]
fn futures_of_a_write_are_calm(rt: HostRuntime) -> Result<(), Fail> {
    let mut bytes: Vec<u8> = Vec::new(rt.alloc());
    both_future(&flush(&mut bytes));
    both_future(&close(&mut bytes));
    write(&mut bytes, b"ab").is_calm_future();
    write_vectored(&mut bytes, &[IoSlice::new(b"ab")]).is_calm_future();
    Ok(())
}

#[test]
fn buffered_writers_are_steady_and_calm(rt: HostRuntime) -> Result<(), Fail> {
    let first = BufWriter::new(rt.alloc(), Takes::new(rt.alloc()));
    let second = BufWriter::new(rt.alloc(), Takes::new(rt.alloc()));
    let (Ok(one), Ok(other)) = (first, second) else {
        return Err(AllocError.into());
    };
    let first = BufReader::new(rt.alloc(), Takes::new(rt.alloc()));
    let second = BufReader::new(rt.alloc(), Takes::new(rt.alloc()));
    let (Ok(read), Ok(other_read)) = (first, second) else {
        return Err(AllocError.into());
    };
    both(&read);
    let (mut buffer_of, mut other_lent) = (Takes::new(rt.alloc()), Takes::new(rt.alloc()));
    let (x, y) = (&mut buffer_of, &mut other_lent);
    adapters_have_properties(&x, &y, &one, &other, &read, &other_read);
    Ok(())
}

/// A writer that is pending before each of two writes, of two bytes and of one at most, and once more.
fn late(rt: &HostRuntime) -> Result<Takes, AllocError>
    ensures { IfOk result (λ t. t.taken ≡ []) }
{
    let mut writer = Takes::new(rt.alloc());
    writer.order(Order::Wait)?;
    writer.order(Order::AtMost(2))?;
    writer.order(Order::Wait)?;
    writer.order(Order::AtMost(1))?;
    writer.order(Order::Wait)?;
    Ok(writer)
}

#[test]
fn writes_after_pendings_agree(rt: HostRuntime) -> Result<(), Fail> {
    let Ok(mut one) = BufWriter::new(rt.alloc(), Takes::new(rt.alloc())) else {
        return Err(AllocError.into());
    };
    let Ok(mut other) = BufWriter::with_capacity(rt.alloc(), 3, late(&rt)?) else {
        return Err(AllocError.into());
    };
    let (wrote, wrote_late) = writes_agree(&rt, &mut one, &mut other, b"abcdefg")?;
    wrote?;
    wrote_late?;
    assert_eq!(rt; one.get_ref().taken(), b"abcdefg".as_slice());
    assert_eq!(rt; other.get_ref().taken(), b"abcdefg".as_slice());
    Ok(())
}

#[test]
fn copies_after_pendings_agree(rt: HostRuntime) -> Result<(), Fail> {
    let mut one = Marks::new(rt.alloc());
    one.chunk(b"abcde")?;
    let mut other = Marks::new(rt.alloc());
    other.pending()?;
    other.chunk(b"abcde")?;
    other.pending()?;
    let writer = Takes::new(rt.alloc());
    let (n, late_n) = copies_agree(&rt, one, other, b"xyz", writer, late(&rt)?)?;
    assert_eq!(rt; (n?, late_n?), (8, 8));
    Ok(())
}
