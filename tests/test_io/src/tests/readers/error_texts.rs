//! The texts of errors, which no clause has: they are those of futures-lite.
use futures_lite::io::{BufWriter, Cursor, Error, ErrorKind, SeekFrom};
use futures_lite::{AsyncBufReadExt, AsyncReadExt, AsyncSeekExt, AsyncWriteExt, future};
use lite_mock::{Order, Takes};
use std::alloc::{AllocError, AllocGlobal};
use std::test::Fail;

/// Whether the text of the error is this one.
fn says<R: AllocGlobal>(rt: &R, error: &Error, text: &str) -> Result<bool, AllocError> {
    let shown = format!(in rt.alloc(); "{error}")?;
    Ok(shown.as_str() == text)
}

#[test]
fn bytes_that_are_no_text_are_called_so(rt: HostRuntime) -> Result<(), Fail> {
    let mut text = String::new(rt.alloc());
    let (mut reader, mut other) = (b"\xff".as_slice(), b"\xff".as_slice());
    let line = future::block_on(&rt, reader.read_line(&mut text))?;
    let whole = future::block_on(&rt, other.read_to_string(&mut text))?;
    for read in [line, whole] {
        match read {
            Err(e) if e.kind() == ErrorKind::OutOfMemory => return Err(Fail::from(e)),
            Err(e) => assert!(rt; says(&rt, &e, "stream did not contain valid UTF-8")?),
            Ok(_) => return Err(Fail::from("the byte is no text")),
        }
    }
    Ok(())
}

#[test]
fn a_writer_that_takes_nothing_fails_to_write_buffered_data(rt: HostRuntime) -> Result<(), Fail> {
    let mut takes = Takes::new(rt.alloc());
    takes.order(Order::AtMost(0))?;
    let Ok(mut writer) = BufWriter::new(rt.alloc(), takes) else {
        return Err(Fail::from("no memory"));
    };
    future::block_on(&rt, writer.write_all(b"ab"))??;
    match future::block_on(&rt, writer.flush())? {
        Err(e) => assert!(rt; says(&rt, &e, "Failed to write buffered data")?),
        Ok(()) => return Err(Fail::from("nothing was taken")),
    }
    Ok(())
}

#[test]
fn a_position_below_zero_is_called_negative(rt: HostRuntime) -> Result<(), Fail> {
    let mut cursor = Cursor::new(b"ab".as_slice());
    match future::block_on(&rt, cursor.seek(SeekFrom::Current(-1)))? {
        Err(e) => assert!(rt;
            says(
                &rt,
                &e,
                "invalid seek to a negative or overflowing position"
            )?
        ),
        Ok(_) => return Err(Fail::from("the position is below zero")),
    }
    Ok(())
}
