use lite_base::future;
use lite_bridge::{BlockOn, Cursor};
use lite_buffered::BufReader;
use lite_mock::Marks;
use std::alloc::AllocError;
use std::io::{BufRead, ErrorKind, Read, Seek, SeekFrom, Write};
use std::test::Fail;

#[test]
fn a_cursor_is_waited_for(rt: HostRuntime) -> Result<(), Fail> {
    let mut bytes = Vec::new(rt.alloc());
    bytes.extend_from_slice(b"xy")?;
    let mut io = BlockOn::new(rt, Cursor::new(bytes));
    let mut one = [b'-'; 1];
    assert_eq!(rt; io.read(&mut one)?, 1);
    assert_eq!(rt; one, [b'x']);
    assert_eq!(rt; io.write(b"z")?, 1);
    io.flush()?;
    assert_eq!(rt; io.seek(SeekFrom::Start(0))?, 0);
    assert_eq!(rt; io.fill_buf()?, b"xz".as_slice());
    io.consume(1);
    assert_eq!(rt; io.fill_buf()?, b"z".as_slice());
    io.consume(7);
    assert_eq!(rt; io.get_ref().position(), 2);
    io.get_mut().set_position(1);
    assert_eq!(rt; io.into_inner().position(), 1);
    Ok(())
}

#[test]
fn a_reader_and_a_writer_take_turns_at_one_waits(rt: HostRuntime) -> Result<(), Fail> {
    let mut marks = Marks::new(rt.alloc());
    marks.pending()?;
    marks.chunk(b"ab")?;
    let mut on = future::block_on::BlockOn::new(&rt)?;
    let mut waits = on.waits();
    let mut buf = [b'-'; 3];
    assert_eq!(rt; BlockOn::by(&mut waits, rt, &mut marks).read(&mut buf)?, 2);
    assert_eq!(rt; buf, [b'a', b'b', b'-']);
    let mut written = Cursor::new(Vec::new(rt.alloc()));
    assert_eq!(rt; BlockOn::by(&mut waits, rt, &mut written).write(b"z")?, 1);
    assert_eq!(rt; BlockOn::by(&mut waits, rt, &mut marks).read(&mut buf)?, 0);
    assert_eq!(rt; written.into_inner().as_slice(), b"z".as_slice());
    Ok(())
}

#[test]
fn an_error_is_handed_on(rt: HostRuntime) -> Result<(), Fail> {
    let mut marks = Marks::new(rt.alloc());
    marks.chunk(b"ab")?;
    marks.fault(ErrorKind::Other)?;
    let mut io = BlockOn::new(rt, marks);
    let mut buf = [b'-'; 3];
    assert_eq!(rt; io.read(&mut buf)?, 2);
    assert_eq!(rt; buf, [b'a', b'b', b'-']);
    assert!(rt;
        io.read(&mut buf)
            .is_err_and(|e| e.kind() == ErrorKind::Other)
    );
    Ok(())
}

#[test]
fn a_fill_goes_on_behind_an_error(rt: HostRuntime) -> Result<(), Fail> {
    let mut marks = Marks::new(rt.alloc());
    marks.fault(ErrorKind::Other)?;
    marks.chunk(b"ab")?;
    let Ok(reader) = BufReader::with_capacity(rt.alloc(), 2, marks) else {
        return Err(AllocError.into());
    };
    let mut io = BlockOn::new(rt, reader);
    match io.fill_buf() {
        Ok(_) => return Err(Fail::from("the error is lost")),
        Err(e) => assert_eq!(rt; e.kind(), ErrorKind::Other),
    }
    assert_eq!(rt; io.fill_buf()?, b"ab".as_slice());
    Ok(())
}
