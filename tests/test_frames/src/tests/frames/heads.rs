use bytes::BytesMut;
use framed::{
    Delimiter, FrameError, Hexadecimal, find_delimiter, read_decimal, read_hexadecimal,
    strip_return, take_body,
};
use std::alloc::AllocError;
use std::test::Fail;

#[test]
fn a_delimiter_is_found_up_to_the_limit_alone(rt: HostRuntime) {
    assert_eq!(rt; find_delimiter(b"", b':', 0), Delimiter::Missing);
    assert_eq!(rt; find_delimiter(b":", b':', 0), Delimiter::At(0));
    assert_eq!(rt; find_delimiter(b"a:", b':', 0), Delimiter::TooFar);
    assert_eq!(rt; find_delimiter(b"a", b':', 0), Delimiter::TooFar);
    assert_eq!(rt; find_delimiter(b"abc::", b':', 3), Delimiter::At(3));
    assert_eq!(rt; find_delimiter(b"abcd:", b':', 3), Delimiter::TooFar);
    assert_eq!(rt; find_delimiter(b"abc", b':', 3), Delimiter::Missing);
    assert_eq!(rt; find_delimiter(b"abc:", b':', usize::MAX), Delimiter::At(3));
    assert_eq!(rt;
        find_delimiter(b"abc", b':', usize::MAX),
        Delimiter::Missing
    );
}

#[test]
fn one_return_is_taken_off(rt: HostRuntime) {
    assert_eq!(rt; strip_return(b"1\r\r"), Some(b"1\r".as_slice()));
    assert_eq!(rt; strip_return(b"\r"), Some(b"".as_slice()));
    for head in [b"".as_slice(), b"\r1", b"1\n", b"1\r\n"] {
        assert_eq!(rt; strip_return(head), None);
    }
}

#[test]
fn a_hexadecimal_number_is_read_in_either_case(rt: HostRuntime) {
    assert_eq!(rt; read_hexadecimal(b"ffffffffffffffff"), Some(usize::MAX));
    assert_eq!(rt; read_hexadecimal(b"00FfFFFFFFFFFFFFFF"), Some(usize::MAX));
    assert_eq!(rt; read_hexadecimal(b"0"), Some(0));
    assert_eq!(rt; read_hexadecimal(b"aBc"), Some(0xabc));
    for text in [
        b"10000000000000000".as_slice(),
        b"+1",
        b"-1",
        b"1 ",
        b" 1",
        b"g",
        b"0x1",
        b"\xff",
    ] {
        assert_eq!(rt; read_hexadecimal(text), None);
    }
}

#[test]
fn a_hexadecimal_number_that_is_written_is_read(rt: HostRuntime) {
    assert_eq!(rt;
        Hexadecimal::new(0xfedc_ba98).as_bytes(),
        b"fedcba98".as_slice()
    );
    for shift in 0..64u32 {
        for number in [1usize << shift, (1usize << shift) - 1, usize::MAX >> shift] {
            let written = Hexadecimal::new(number);
            assert_eq!(rt; read_hexadecimal(written.as_bytes()), Some(number));
        }
    }
}

#[test]
fn a_number_has_one_form(rt: HostRuntime) {
    assert_eq!(rt; read_decimal(b"18446744073709551615"), Some(usize::MAX));
    assert_eq!(rt; read_decimal(b"9"), Some(9));
    for text in [
        b"18446744073709551616".as_slice(),
        b"00",
        b"01",
        b"+1",
        b"-1",
        b"1 ",
        b" 1",
        b"1a",
        b"\xff",
    ] {
        assert_eq!(rt; read_decimal(text), None);
    }
}

/// Takes a body, and tells a refused allocation as an error of the test.
fn take(
    src: &mut BytesMut,
    start: usize,
    length: usize,
    tail: &[u8],
) -> Result<Result<Option<BytesMut>, FrameError>, Fail> {
    match take_body(src, start, length, tail) {
        Err(FrameError::Io(_)) => Err(AllocError.into()),
        taken => Ok(taken),
    }
}

#[test]
fn a_body_is_taken_with_its_head_and_its_tail(rt: HostRuntime) -> Result<(), Fail> {
    let mut src = BytesMut::copy_from_slice(rt.alloc(), b"3;abc\r\n0;\r\n2;ab\r")?;
    for body in [b"abc".as_slice(), b""] {
        match take(&mut src, 2, body.len(), b"\r\n")? {
            Ok(Some(taken)) => assert_eq!(rt; taken.as_slice(), body),
            _ => return Err(Fail::from("there is a body")),
        }
    }
    for (start, length) in [(2, 2), (2, 9), (usize::MAX, 2), (2, usize::MAX - 1)] {
        assert!(rt; matches!(take(&mut src, start, length, b"\r\n")?, Ok(None)));
    }
    assert!(rt; matches!(take(&mut src, 2, 1, b"\r\n")?, Err(FrameError::Malformed)));
    assert_eq!(rt; src.as_slice(), b"2;ab\r".as_slice());
    match take(&mut src, 2, 2, b"")? {
        Ok(Some(taken)) => assert_eq!(rt; taken.as_slice(), b"ab".as_slice()),
        _ => return Err(Fail::from("a tail may be empty")),
    }
    assert_eq!(rt; src.as_slice(), b"\r".as_slice());
    Ok(())
}
