use lite_base::Poll;
use lite_buffered::BufWriter;
use lite_mock::Takes;
use std::alloc::AllocError;
use std::test::Fail;
use test_support::{finishes, write};

/// A buffered writer with room for so many bytes.
pub(super) fn buffered<W: Drop>(
    rt: &HostRuntime,
    capacity: usize,
    writer: W,
) -> Result<BufWriter<W>, AllocError> {
    match BufWriter::with_capacity(rt.alloc(), capacity, writer) {
        Ok(writer) => Ok(writer),
        Err(_) => Err(AllocError),
    }
}

#[test]
fn the_default_capacity_is_8192(rt: HostRuntime) -> Result<(), Fail> {
    let Ok(mut writer) = BufWriter::new(rt.alloc(), Takes::new(rt.alloc())) else {
        return Err(AllocError.into());
    };
    let bytes = vec![in rt.alloc(); b'-'; 8192]?;
    let most = &bytes.as_slice()[1..];
    assert_eq!(rt; write(&rt, &mut writer, most)?, Poll::Ready(Ok(8191)));
    assert_eq!(rt; write(&rt, &mut writer, b"-")?, Poll::Ready(Ok(1)));
    assert_eq!(rt; writer.get_ref().taken(), b"".as_slice());
    assert_eq!(rt; write(&rt, &mut writer, b"a")?, Poll::Ready(Ok(1)));
    assert_eq!(rt; writer.get_ref().taken(), bytes.as_slice());
    *writer.get_mut() = Takes::new(rt.alloc());
    assert_eq!(rt; writer.get_ref().taken(), b"".as_slice());
    assert_eq!(rt; writer.buffer(), b"a".as_slice());
    Ok(())
}

#[test]
fn a_refused_buffer_hands_the_writer_back(rt: HostRuntime) -> Result<(), Fail> {
    let bytes = Vec::from_slice(rt.alloc(), b"a")?;
    match BufWriter::with_capacity(rt.alloc(), usize::MAX, bytes) {
        Ok(_writer) => assert!(rt; false),
        Err(same) => assert_eq!(rt; same.as_slice(), b"a".as_slice()),
    }
    Ok(())
}

#[test]
fn what_is_held_is_lost_without_a_flush(rt: HostRuntime) -> Result<(), Fail> {
    let mut writer = buffered(&rt, 4, Vec::new(rt.alloc()))?;
    assert_eq!(rt; write(&rt, &mut writer, b"ab")?, Poll::Ready(Ok(2)));
    assert_eq!(rt; writer.into_inner().as_slice(), b"".as_slice());
    Ok(())
}

#[test]
fn a_borrowed_writer_is_buffered(rt: HostRuntime) -> Result<(), Fail> {
    let mut bytes = Vec::new(rt.alloc());
    let mut writer = buffered(&rt, 4, &mut bytes)?;
    assert_eq!(rt; write(&rt, &mut &mut writer, b"abc")?, Poll::Ready(Ok(3)));
    assert_eq!(rt; write(&rt, &mut writer, b"def")?, Poll::Ready(Ok(3)));
    assert!(rt; finishes(&rt, &mut writer)?);
    drop(writer);
    assert_eq!(rt; bytes.as_slice(), b"abcdef".as_slice());
    Ok(())
}
