use lite_read::{LineScan, scan_line};
use std::test::Fail;

/// Lengths about one load and about two.
const LENGTHS: [usize; 7] = [0, 1, 31, 32, 33, 64, 65];

fn found(newline: Option<usize>, ascii: bool) -> LineScan {
    LineScan { newline, ascii }
}

#[test]
fn the_first_newline_ends_the_line(rt: HostRuntime) -> Result<(), Fail> {
    assert_eq!(rt; scan_line(b"ab\ncd"), found(Some(2), true));
    assert_eq!(rt; scan_line(b"a\xc3\n"), found(Some(2), false));
    assert_eq!(rt; scan_line(b"a\n\xc3"), found(Some(1), true));
    assert_eq!(rt; scan_line(b""), found(None, true));
    Ok(())
}

#[test]
fn a_newline_is_found_at_each_place(rt: HostRuntime) -> Result<(), Fail> {
    for len in &LENGTHS {
        let mut bytes = vec![in rt.alloc(); b'a'; *len]?;
        assert_eq!(rt; scan_line(&bytes), found(None, true));
        for i in 0..bytes.len() {
            bytes[i] = b'\n';
            assert_eq!(rt; scan_line(&bytes), found(Some(i), true));
            bytes[i] = b'a';
        }
    }
    Ok(())
}

#[test]
fn a_byte_that_is_not_ascii_counts_before_the_newline_alone(rt: HostRuntime) -> Result<(), Fail> {
    for len in &LENGTHS {
        let mut bytes = vec![in rt.alloc(); b'a'; *len]?;
        for other in 0..bytes.len() {
            bytes[other] = 0xc3;
            assert_eq!(rt; scan_line(&bytes), found(None, false));
            for i in 0..bytes.len() {
                if i != other {
                    bytes[i] = b'\n';
                    assert_eq!(rt; scan_line(&bytes), found(Some(i), i < other));
                    bytes[i] = b'a';
                }
            }
            bytes[other] = b'a';
        }
    }
    Ok(())
}
