//! What no clause says: whole sessions, byte by byte, and each public function once.
mod sessions;

use bytes::BytesMut;
use example_lines::request::{Request, parse};
use example_lines::store::Store;
use framed::{Answer, LineDelimited, Service};
use std::alloc::Global;
use std::test::Fail;
use tokio_util::codec::{Decoder, Encoder};

// Returns the replies to these bytes, which come one by one.
fn session(alloc: Global, bytes: &[u8]) -> Result<BytesMut, Fail> {
    let mut codec = LineDelimited { max: 40 };
    let mut store = Store::new(alloc);
    let mut src = BytesMut::new(alloc);
    let mut dst = BytesMut::new(alloc);
    for byte in bytes {
        src.extend_from_slice(&[*byte])?;
        if let Some(line) = codec.decode(&mut src)? {
            let Answer { replies, goes_on } = store.answer(alloc, line)?;
            for reply in replies {
                codec.encode(reply, &mut dst)?;
            }
            if !goes_on {
                return Ok(dst);
            }
        }
    }
    if let Err(e) = codec.decode_eof(&mut src) {
        for reply in store.refuse(alloc, &e)? {
            codec.encode(reply, &mut dst)?;
        }
    }
    Ok(dst)
}

#[test]
fn a_session_quits(rt: HostRuntime) -> Result<(), Fail> {
    let replies = session(
        rt.alloc(),
        b"SET k a b\r\nGET k\nDEL k\nDEL k\nCOUNT\nQUIT\nCOUNT\n",
    )?;
    assert_eq!(rt;
        replies.as_slice(),
        b"stored\nvalue a b\ndeleted\nno value\ncount 0\nbye\n".as_slice()
    );
    Ok(())
}

#[test]
fn a_web_page_writes_nothing(rt: HostRuntime) -> Result<(), Fail> {
    for head in ["POST / HTTP/1.1\r\n", "GET / HTTP/1.1\r\nHost: a\r\n"] {
        let text = format!(in rt.alloc(); "COUNT\n{head}\r\nSET k evil\nCOUNT\n")?;
        let replies = session(rt.alloc(), text.as_bytes())?;
        assert!(rt; replies.as_slice().starts_with(b"count 0\n"));
        assert!(rt;
            replies
                .as_slice()
                .ends_with(b"\nerror: this is no web server\n")
        );
    }
    Ok(())
}

#[test]
fn a_line_that_is_cut_off_is_not_performed(rt: HostRuntime) -> Result<(), Fail> {
    let replies = session(rt.alloc(), b"SET user1 x\nDEL user1")?;
    assert_eq!(rt;
        replies.as_slice(),
        b"stored\nerror: the last line has no newline\n".as_slice()
    );
    Ok(())
}

#[test]
fn a_line_that_is_no_request_is_an_error(rt: HostRuntime) -> Result<(), Fail> {
    for line in [b"get k".as_slice(), b"", b"GET", b"COUNT k", b"QUIT "] {
        assert_eq!(rt; parse(line), Request::Unknown);
    }
    for line in [
        b"SET k".as_slice(),
        b"SET ",
        b"SET k ",
        b"SET  v",
        b"SET k v\r",
    ] {
        assert_eq!(rt; parse(line), Request::Malformed);
    }
    assert_eq!(rt; parse(b"GET a b"), Request::Get(b"a b".as_slice()));
    Ok(())
}

#[test]
fn values_are_counted(rt: HostRuntime) -> Result<(), Fail> {
    let mut store = Store::new(rt.alloc());
    store.set(b"a", b"1")?;
    store.set(b"b", b"2")?;
    store.set(b"a", b"3")?;
    assert_eq!(rt; store.len(), 2);
    assert_eq!(rt; store.get(b"a"), Some(b"3".as_slice()));
    assert!(rt; store.delete(b"a") && !store.delete(b"a"));
    assert_eq!(rt; store.len(), 1);
    Ok(())
}
