use futures_lite::future::BlockOn;
use futures_lite::io::{
    BufReader, wait_flush, wait_read, wait_read_exact, wait_read_until, wait_read_until_limited,
    wait_write_all,
};
use std::alloc::AllocError;
use std::io::ErrorKind;
use std::test::Fail;

#[test]
fn waits_for_reads_give_their_values(rt: HostRuntime) -> Result<(), Fail> {
    let mut on = BlockOn::new(&rt)?;
    let mut reader = b"abc\nd".as_slice();
    let mut buf = [0u8; 2];
    assert_eq!(rt; wait_read(&mut on, &rt, &mut reader, &mut buf)??, 2);
    assert_eq!(rt; buf.as_slice(), b"ab".as_slice());
    let mut piece = Vec::from_slice(rt.alloc(), b"x")?;
    assert_eq!(rt;
        wait_read_until(&mut on, &rt, &mut reader, b'\n', &mut piece)??,
        2
    );
    assert_eq!(rt; piece.as_slice(), b"xc\n".as_slice());
    let full = wait_read_exact(&mut on, &rt, &mut reader, &mut buf)?;
    assert_eq!(rt; full.map_err(|e| e.kind()), Err(ErrorKind::UnexpectedEof));
    assert_eq!(rt; buf[0], b'd');
    assert_eq!(rt;
        wait_read_until(&mut on, &rt, &mut reader, b'\n', &mut piece)??,
        0
    );
    Ok(())
}

#[test]
fn a_limited_wait_stops_at_its_limit(rt: HostRuntime) -> Result<(), Fail> {
    let mut on = BlockOn::new(&rt)?;
    let Ok(mut reader) = BufReader::with_capacity(rt.alloc(), 2, b"abc\ndefgh\ni".as_slice()) else {
        return Err(AllocError.into());
    };
    let mut piece = Vec::new(rt.alloc());
    let limits = [0, 4, 4, 4, 4, 4];
    let counts = [0, 4, 4, 2, 1, 0];
    for (limit, count) in limits.into_iter().zip(counts) {
        let read = wait_read_until_limited(&mut on, &rt, &mut reader, b'\n', limit, &mut piece)?;
        assert_eq!(rt; read?, count);
    }
    assert_eq!(rt; piece.as_slice(), b"abc\ndefgh\ni".as_slice());
    Ok(())
}

#[test]
fn waits_for_a_write_and_a_flush_give_their_values(rt: HostRuntime) -> Result<(), Fail> {
    let mut on = BlockOn::new(&rt)?;
    let mut written = Vec::new(rt.alloc());
    wait_write_all(&mut on, &rt, &mut written, b"abc")??;
    wait_flush(&mut on, &rt, &mut written)??;
    assert_eq!(rt; written.as_slice(), b"abc".as_slice());
    let Ok(mut reader) = BufReader::with_capacity(rt.alloc(), 2, written.as_slice()) else {
        return Err(AllocError.into());
    };
    let mut buf = [0u8; 3];
    wait_read_exact(&mut on, &rt, &mut reader, &mut buf)??;
    assert_eq!(rt; buf.as_slice(), b"abc".as_slice());
    Ok(())
}
