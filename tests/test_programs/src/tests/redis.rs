//! What no clause says: bytes of real clients, and each public function once.
mod sessions;

use bytes::BytesMut;
use example_redis::commands::Outcome;
use example_redis::error::{ReplyError, RequestError};
use example_redis::limits::Limits;
use example_redis::reply::{Replies, Reply};
use example_redis::requests::{Request, Requests};
use example_redis::store::Store;
use std::alloc::Global;
use std::test::Fail;
use tokio_util::codec::{Decoder, Encoder};

const SMALL: Limits = Limits {
    words: 3,
    word: 5,
    request: 30,
    line: 12,
};

// Returns the words of a request, with a bar behind each.
fn shown(alloc: Global, request: &Request) -> Result<Vec<u8>, Fail> {
    let mut text = Vec::new(alloc);
    for word in &request.words {
        text.extend_from_slice(word)?;
        text.push(b'|')?;
    }
    Ok(text)
}

// Returns what is decoded of these bytes, which come one by one, with a line feed behind each request.
fn decoded(alloc: Global, bytes: &[u8]) -> Result<Vec<u8>, Fail> {
    let mut requests = Requests::new(alloc, Limits::USUAL);
    let mut src = BytesMut::new(alloc);
    let mut text = Vec::new(alloc);
    for byte in bytes {
        src.extend_from_slice(&[*byte])?;
        if let Some(request) = requests.decode(&mut src)? {
            text.extend_from_slice(shown(alloc, &request)?.as_slice())?;
            text.push(b'\n')?;
        }
    }
    Ok(text)
}

#[test]
fn requests_byte_by_byte(rt: HostRuntime) -> Result<(), Fail> {
    let text = decoded(
        rt.alloc(),
        b"*2\r\n$4\r\nECHO\r\n$2\r\nhi\r\n*0\r\nPING\r\n  get  \ta\nquit\n*1\r\n$0\r\n\r\n\r\n*1\r\n$2\r\n\r\n\r\n",
    )?;
    assert_eq!(rt;
        text.as_slice(),
        b"ECHO|hi|\n\nPING|\nget|a|\nquit|\n|\n\n\r\n|\n".as_slice()
    );
    Ok(())
}

// Whether these bytes are refused with this error, twice.
fn is_refused(alloc: Global, bytes: &[u8], error: &RequestError) -> Result<bool, Fail> {
    let mut requests = Requests::new(alloc, SMALL);
    let mut src = BytesMut::new(alloc);
    src.extend_from_slice(bytes)?;
    let first = requests.decode_eof(&mut src);
    let second = requests.decode_eof(&mut src);
    Ok(is_error(first, error) && is_error(second, error))
}

fn is_error(decoded: Result<Option<Request>, RequestError>, error: &RequestError) -> bool {
    matches!(
        (decoded, error),
        (Err(RequestError::Malformed), RequestError::Malformed)
            | (Err(RequestError::TooManyWords), RequestError::TooManyWords)
            | (Err(RequestError::LongWord), RequestError::LongWord)
            | (Err(RequestError::LongRequest), RequestError::LongRequest)
            | (Err(RequestError::LongLine), RequestError::LongLine)
            | (Err(RequestError::Cut), RequestError::Cut)
    )
}

#[test]
fn requests_that_are_refused(rt: HostRuntime) -> Result<(), Fail> {
    let alloc = rt.alloc();
    assert!(rt; is_refused(alloc, b"*-1\r\n", &RequestError::Malformed)?);
    assert!(rt; is_refused(alloc, b"*01\r\n", &RequestError::Malformed)?);
    assert!(rt; is_refused(alloc, b"*\r\n", &RequestError::Malformed)?);
    assert!(rt; is_refused(alloc, b"*1\n", &RequestError::Malformed)?);
    assert!(rt; is_refused(alloc, b"*1\r\n:", &RequestError::Malformed)?);
    assert!(rt; is_refused(alloc, b"*1\r\n$-1\r\n", &RequestError::Malformed)?);
    assert!(rt; is_refused(alloc, b"*1\r\n$2\r\nabc", &RequestError::Malformed)?);
    assert!(rt; is_refused(alloc, b"*1\r\n$2\r\nab\rc", &RequestError::Malformed)?);
    assert!(rt; is_refused(alloc, b"*4", &RequestError::TooManyWords)?);
    assert!(rt; is_refused(alloc, b"*1\r\n$6", &RequestError::LongWord)?);
    assert!(rt;
        is_refused(
            alloc,
            b"*3\r\n$5\r\nabcde\r\n$5\r\nabcde\r\n$5\r\n",
            &RequestError::LongRequest
        )?
    );
    assert!(rt; is_refused(alloc, b"thirteen byte", &RequestError::LongLine)?);
    assert!(rt; is_refused(alloc, b"twelve bytes", &RequestError::Cut)?);
    assert!(rt; is_refused(alloc, b"*2\r\n$1\r\na\r\n", &RequestError::Cut)?);
    Ok(())
}

#[test]
fn replies_nest(rt: HostRuntime) -> Result<(), Fail> {
    let alloc = rt.alloc();
    let mut inner = Vec::new(alloc);
    inner.push(Reply::Null)?;
    inner.push(Reply::Integer(-7))?;
    let mut outer = Vec::new(alloc);
    outer.push(Reply::Array(inner))?;
    outer.push(Reply::Bulk(Vec::from_slice(alloc, b"a\r\nb")?))?;
    outer.push(Reply::Simple("OK"))?;
    outer.push(Reply::Error(Vec::from_slice(alloc, b"ERR no")?))?;
    let mut dst = BytesMut::new(alloc);
    Replies { depth: 2 }.encode(Reply::Array(outer), &mut dst)?;
    assert_eq!(rt;
        dst.as_slice(),
        b"*4\r\n*2\r\n$-1\r\n:-7\r\n$4\r\na\r\nb\r\n+OK\r\n-ERR no\r\n".as_slice()
    );
    Ok(())
}

#[test]
fn replies_that_are_refused(rt: HostRuntime) -> Result<(), Fail> {
    let alloc = rt.alloc();
    let mut dst = BytesMut::new(alloc);
    let mut outer = Vec::new(alloc);
    outer.push(Reply::Array(Vec::new(alloc)))?;
    let nested = Replies { depth: 1 }.encode(Reply::Array(outer), &mut dst);
    assert!(rt; matches!(nested, Err(ReplyError::Nested)));
    let broken = Replies { depth: 1 }.encode(
        Reply::Error(Vec::from_slice(alloc, b"a\nb")?),
        &mut dst,
    );
    assert!(rt; matches!(broken, Err(ReplyError::LineBreak)));
    assert!(rt; dst.is_empty());
    Ok(())
}

// Returns the replies to these requests.
fn session(alloc: Global, bytes: &[u8]) -> Result<BytesMut, Fail> {
    let mut requests = Requests::new(alloc, Limits::USUAL);
    let mut store = Store::new(alloc, usize::MAX);
    let mut src = BytesMut::new(alloc);
    let mut dst = BytesMut::new(alloc);
    src.extend_from_slice(bytes)?;
    for _ in 0..bytes.len() {
        let Some(request) = requests.decode(&mut src)? else {
            break;
        };
        let Outcome { reply, goes_on } = store.perform(request.words.as_slice())?;
        if let Some(reply) = reply {
            Replies::USUAL.encode(reply, &mut dst)?;
        }
        if !goes_on {
            break;
        }
    }
    Ok(dst)
}

#[test]
fn a_session(rt: HostRuntime) -> Result<(), Fail> {
    let replies = session(
        rt.alloc(),
        b"ping\n\nPING a\nset k v\nGET k\nset k w\ndbsize\nget k\ndel k x k\nget k\nCONFIG GET save\nquit\nping\n",
    )?;
    assert_eq!(rt;
        replies.as_slice(),
        b"+PONG\r\n$1\r\na\r\n+OK\r\n$1\r\nv\r\n+OK\r\n:1\r\n$1\r\nw\r\n:1\r\n$-1\r\n*0\r\n+OK\r\n".as_slice()
    );
    Ok(())
}

#[test]
fn a_session_of_mistakes(rt: HostRuntime) -> Result<(), Fail> {
    let replies = session(rt.alloc(), b"set k\nset a b c d\n*1\r\n$4\r\na\r\nb\r\n")?;
    let (first, rest) = (
        b"-ERR wrong number of arguments for 'set' command\r\n".as_slice(),
        b"-ERR syntax error\r\n-ERR unknown command 'a  b', with args beginning with: \r\n".as_slice(),
    );
    assert_eq!(rt; replies.as_slice().strip_prefix(first), Some(rest));
    Ok(())
}

// The replies are those of redis-server 7.0, but for the texts of the errors of `CONFIG`, `CLIENT` and `MULTI`.
#[test]
fn a_session_about_the_connection(rt: HostRuntime) -> Result<(), Fail> {
    let replies = session(
        rt.alloc(),
        b"select 0\nSELECT 1\nCommand Count\nCOMMAND DOCS\nCONFIG SET a b\nCLIENT setname me\nCLIENT SETINFO a b\nCLIENT LIST\nSELECT\n",
    )?;
    let (first, rest) = (
        b"+OK\r\n-ERR DB index is out of range\r\n:14\r\n*0\r\n-ERR only CONFIG GET is supported\r\n+OK\r\n+OK\r\n".as_slice(),
        b"-ERR only CLIENT SETNAME and CLIENT SETINFO are supported\r\n-ERR wrong number of arguments for 'select' command\r\n".as_slice(),
    );
    assert_eq!(rt; replies.as_slice().strip_prefix(first), Some(rest));
    Ok(())
}

#[test]
fn a_transaction_performs_nothing(rt: HostRuntime) -> Result<(), Fail> {
    let replies = session(
        rt.alloc(),
        b"EXEC\nDISCARD\nMULTI\nSET a 1\nMULTI\nEXEC\nDBSIZE\nMULTI\nDISCARD\nGET a\nMULTI\nQUIT\n",
    )?;
    let multi = "-ERR MULTI is not supported: nothing is performed up to EXEC or DISCARD\r\n";
    let not_performed = "-ERR not performed, since MULTI was refused\r\n";
    let wanted = format!(in rt.alloc();
        "-ERR EXEC without MULTI\r\n-ERR DISCARD without MULTI\r\n{multi}{not_performed}{not_performed}-EXECABORT Transaction discarded because of previous errors.\r\n:0\r\n{multi}+OK\r\n$-1\r\n{multi}+OK\r\n"
    )?;
    assert_eq!(rt; replies.as_slice(), wanted.as_bytes());
    Ok(())
}

#[test]
fn a_web_page_writes_nothing(rt: HostRuntime) -> Result<(), Fail> {
    let replies = session(rt.alloc(), b"PING\nPOST / HTTP/1.1\r\nSET evil x\nDBSIZE\n")?;
    assert_eq!(rt; replies.as_slice(), b"+PONG\r\n".as_slice());
    let replies = session(
        rt.alloc(),
        b"PING\nGET /a HTTP/1.1\r\nHost: a\r\n\r\nSET evil x\nDBSIZE\n",
    )?;
    assert_eq!(rt;
        replies.as_slice(),
        b"+PONG\r\n-ERR wrong number of arguments for 'get' command\r\n".as_slice()
    );
    Ok(())
}

// The words of an unknown command are shown as redis-server 7.0 shows them.
#[test]
fn unknown_commands(rt: HostRuntime) -> Result<(), Fail> {
    let long = format!(in rt.alloc();
        "NO {}\nINCR a b\nNO {} c\n",
        "x".repeat(rt.alloc(), 200)?,
        "y".repeat(rt.alloc(), 125)?
    )?;
    let replies = session(rt.alloc(), long.as_bytes())?;
    let begun = ", with args beginning with: ";
    let wanted = format!(in rt.alloc();
        "-ERR unknown command 'NO'{begun}'{}' \r\n-ERR unknown command 'INCR'{begun}'a' 'b' \r\n-ERR unknown command 'NO'{begun}'{}' \r\n",
        "x".repeat(rt.alloc(), 128)?,
        "y".repeat(rt.alloc(), 125)?
    )?;
    assert_eq!(rt; replies.as_slice(), wanted.as_bytes());
    Ok(())
}

#[test]
fn a_full_store_refuses_values(rt: HostRuntime) -> Result<(), Fail> {
    let mut store = Store::new(rt.alloc(), 300);
    assert!(rt; store.set(b"a", b"12345")?);
    assert!(rt; store.set(b"b", &[0u8; 101])?);
    assert!(rt; !store.set(b"c", b"")? && !store.set(b"a", b"123456")?);
    assert!(rt; store.set(b"a", b"1234")?);
    assert!(rt; store.delete(b"b") && store.set(b"c", b"")?);
    assert_eq!(rt; store.get(b"a"), Some(b"1234".as_slice()));
    assert_eq!(rt; store.len(), 2);
    Ok(())
}
