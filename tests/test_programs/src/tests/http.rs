use example_http::echo::Echo;
use example_http::http_error::HttpError;
use example_http::session::serve_session;
use futures_lite::future::BlockOn;
use futures_lite::io::{AsyncWrite, BufReader, BufWriter, wait_write_all};
use http_server::Config;
use lite_mock::{Marks, Order, Takes};
use std::alloc::AllocGlobal;
use std::hash::RandomState;
use std::io::ErrorKind;
use std::random::RandomSource;
use std::sync::Wait;
use std::test::Fail;

/// Requests of one client, each with its response.
const EXCHANGES: [(&str, &str); 7] = [
    (
        "POST /echo HTTP/1.1\r\nHost: a\r\nContent-Type: text/x\r\nContent-Length: 5\r\n\r\nhello",
        "HTTP/1.1 200 OK\r\ncontent-type: text/x\r\ncontent-length: 5\r\n\r\nhello",
    ),
    (
        "GET /count HTTP/1.1\r\nHost: a\r\n\r\n",
        "HTTP/1.1 200 OK\r\ncontent-type: text/plain\r\ncontent-length: 1\r\n\r\n1",
    ),
    (
        "HEAD /count HTTP/1.1\r\nHost: a\r\n\r\n",
        "HTTP/1.1 200 OK\r\ncontent-type: text/plain\r\ncontent-length: 1\r\n\r\n",
    ),
    (
        "POST /echo HTTP/1.1\r\nHost: a\r\nTransfer-Encoding: chunked\r\n\r\n2\r\nab\r\n1;x\r\nc\r\n0\r\n\r\n",
        "HTTP/1.1 200 OK\r\ncontent-length: 3\r\n\r\nabc",
    ),
    (
        "GET /echo HTTP/1.1\r\nHost: a\r\n\r\n",
        "HTTP/1.1 405 Method Not Allowed\r\nallow: POST\r\ncontent-length: 0\r\n\r\n",
    ),
    (
        "DELETE /count HTTP/1.1\r\nHost: a\r\n\r\n",
        "HTTP/1.1 405 Method Not Allowed\r\nallow: GET, HEAD\r\ncontent-length: 0\r\n\r\n",
    ),
    (
        "GET /none HTTP/1.1\r\nHost: a\r\n\r\n",
        "HTTP/1.1 404 Not Found\r\ncontent-length: 0\r\n\r\n",
    ),
];

/// The text of a refusal.
const BAD_REQUEST: &str =
    "HTTP/1.1 400 Bad Request\r\nconnection: close\r\ncontent-length: 0\r\n\r\n";

/// The first `count` bytes of all requests, and the responses to the whole requests among them.
fn first_bytes(rt: &HostRuntime, count: usize) -> Result<(Vec<u8>, Vec<u8>), Fail> {
    let mut sent = Vec::new(rt.alloc());
    let mut wanted = Vec::new(rt.alloc());
    let mut left = count;
    for (request, response) in EXCHANGES {
        let front = request.len().min(left);
        sent.extend_from_slice(&request.as_bytes()[..front])?;
        left -= front;
        if front < request.len() {
            break;
        }
        wanted.extend_from_slice(response.as_bytes())?;
    }
    Ok((sent, wanted))
}

/// Serves what the reader tells, through a buffer of so many bytes.
fn serve_told<R, O>(
    rt: &R,
    told: Marks,
    room: usize,
    writer: &mut O,
) -> Result<Result<(), HttpError>, Fail>
where
    R: Wait + RandomSource + AllocGlobal,
    O: AsyncWrite,
{
    let mut on = BlockOn::new(rt)?;
    let Ok(mut reader) = BufReader::with_capacity(rt.alloc(), room, told) else {
        return Err(Fail::from("no memory"));
    };
    let keys = RandomState::new(rt)?;
    Ok(serve_session(
        &mut on.waits(),
        rt,
        &mut reader,
        writer,
        keys,
        Config::default(),
        &mut Echo::new(),
    ))
}

#[test]
fn pieces_and_pendings_change_nothing(rt: HostRuntime) -> Result<(), Fail> {
    let (sent, wanted) = first_bytes(&rt, usize::MAX)?;
    for size in [1usize, 7, 64, 4096] {
        let mut told = Marks::new(rt.alloc());
        for piece in sent.chunks(size) {
            told.chunk(piece)?;
            told.pending()?;
        }
        let mut writer = Takes::new(rt.alloc());
        for most in 1..40usize {
            writer.order(Order::AtMost(most))?;
            writer.order(Order::Wait)?;
        }
        let served = serve_told(&rt, told, 64, &mut writer)?;
        assert!(rt; served.is_ok(), "at {size}");
        assert_eq!(rt; writer.taken(), wanted.as_slice(), "at {size}");
    }
    Ok(())
}

#[test]
fn an_error_of_the_reader_comes_behind_the_responses(rt: HostRuntime) -> Result<(), Fail> {
    let (all, _) = first_bytes(&rt, usize::MAX)?;
    for count in 0..all.len() {
        let (sent, wanted) = first_bytes(&rt, count)?;
        let mut told = Marks::new(rt.alloc());
        told.chunk(&sent)?;
        told.fault(ErrorKind::ConnectionReset)?;
        told.chunk(b"GET /count HTTP/1.1\r\nHost: a\r\n\r\n")?;
        let mut taken = Takes::new(rt.alloc());
        let Ok(mut writer) = BufWriter::new(rt.alloc(), &mut taken) else {
            return Err(Fail::from("no memory"));
        };
        let served = serve_told(&rt, told, 64, &mut writer)?;
        drop(writer);
        match served {
            Err(HttpError::Input(e)) => assert_eq!(rt; e.kind(), ErrorKind::ConnectionReset),
            _ => return Err(Fail::from("the reader's error is not returned")),
        }
        assert_eq!(rt; taken.taken(), wanted.as_slice(), "at {count}");
    }
    Ok(())
}

#[test]
fn an_error_of_the_writer_ends_the_session(rt: HostRuntime) -> Result<(), Fail> {
    let (sent, wanted) = first_bytes(&rt, usize::MAX)?;
    for count in 1..wanted.len() {
        let mut told = Marks::new(rt.alloc());
        told.chunk(&sent)?;
        let mut writer = Takes::new(rt.alloc());
        writer.order(Order::AtMost(count))?;
        writer.order(Order::Fail(ErrorKind::BrokenPipe))?;
        match serve_told(&rt, told, 4096, &mut writer)? {
            Err(HttpError::Output(e)) => assert_eq!(rt; e.kind(), ErrorKind::BrokenPipe),
            _ => return Err(Fail::from("the writer's error is not returned")),
        }
        assert_eq!(rt; writer.taken(), &wanted[..count], "at {count}");
    }
    Ok(())
}

#[test]
fn nothing_is_answered_behind_a_refusal(rt: HostRuntime) -> Result<(), Fail> {
    let (_, mut wanted) = first_bytes(&rt, 90)?;
    wanted.extend_from_slice(BAD_REQUEST.as_bytes())?;
    let mut told = Marks::new(rt.alloc());
    told.chunk(EXCHANGES[0].0.as_bytes())?;
    told.chunk(b"no request\r\n\r\n")?;
    told.chunk(EXCHANGES[1].0.as_bytes())?;
    let mut writer = Takes::new(rt.alloc());
    let served = serve_told(&rt, told, 4096, &mut writer)?;
    assert!(rt; served.is_ok());
    assert_eq!(rt; writer.taken(), wanted.as_slice());
    Ok(())
}

#[test]
fn a_response_takes_two_writes_at_most(rt: HostRuntime) -> Result<(), Fail> {
    let (sent, wanted) = first_bytes(&rt, usize::MAX)?;
    let mut told = Marks::new(rt.alloc());
    told.chunk(&sent)?;
    let mut writer = Takes::new(rt.alloc());
    for _ in 0..2 * EXCHANGES.len() {
        writer.order(Order::AtMost(usize::MAX))?;
    }
    writer.order(Order::Fail(ErrorKind::BrokenPipe))?;
    assert!(rt; serve_told(&rt, told, 4096, &mut writer)?.is_ok());
    assert_eq!(rt; writer.taken(), wanted.as_slice());
    Ok(())
}

#[test]
fn what_was_written_is_flushed_if_memory_is_refused(rt: HostRuntime) -> Result<(), Fail> {
    let mut on = BlockOn::new(&rt)?;
    let mut taken = Takes::new(rt.alloc());
    let Ok(mut writer) = BufWriter::new(rt.alloc(), &mut taken) else {
        return Err(Fail::from("no memory"));
    };
    wait_write_all(&mut on, &rt, &mut writer, b"before")??;
    let mut config = Config::default();
    // No memory has room for such a read.
    config.read_size = usize::MAX;
    let keys = RandomState::new(&rt)?;
    let served = serve_session(
        &mut on.waits(),
        &rt,
        &mut EXCHANGES[1].0.as_bytes(),
        &mut writer,
        keys,
        config,
        &mut Echo::new(),
    );
    drop(writer);
    assert!(rt;
        matches!(served, Err(HttpError::Memory)),
        "memory is not refused"
    );
    assert_eq!(rt; taken.taken(), b"before".as_slice());
    Ok(())
}
