//! Crates of the toolchain over readers and writers of this library.
use super::error_of;
use bytes::{Bytes, BytesMut};
use compat::CompatExt;
use futures::executor::block_on as block_on_there;
use futures::future::{Ready, join};
use futures::sink::SinkExt;
use futures::{StreamExt as _, future};
use futures_lite::AsyncReadExt;
use futures_lite::io::{BufReader, BufWriter};
use http_body_util::Empty;
use hyper::body::Incoming;
use hyper::service::Service;
use hyper::{Request, Response, StatusCode, server};
use std::alloc::{AllocError, Global};
use std::convert::Infallible;
use std::hash::RandomState;
use std::test::Fail;
use tokio::io::{duplex, read_to_end, write_all};
use tokio_util::codec::{FramedRead, FramedWrite, LinesCodec};

/// Has nothing to say to any request.
#[derive(Clone, Copy)]
struct NoContent(Global);

impl<I: Drop> Service<Request<Incoming<I>>> for NoContent {
    type Response = Response<Empty<Bytes>>;

    type Error = Infallible;

    type Future = Ready<Result<Response<Empty<Bytes>>, Infallible>>;

    fn call(&self, _req: Request<Incoming<I>>) -> Self::Future {
        let mut response = Response::new(self.0, Empty::new());
        *response.status_mut() = StatusCode::NO_CONTENT;
        future::ok(response)
    }
}

#[test]
fn hyper_serves_over_a_reader_with_a_budget(rt: HostRuntime) -> Result<(), Fail> {
    let alloc = rt.alloc();
    let (near, far) = duplex(alloc, 256)?;
    let http = server::conn::http1::Builder::new(alloc, RandomState::new(&rt)?);
    let io = near.compat().with_budget(16).compat();
    let serving = http.serve_connection(io, NoContent(alloc));
    let asked = b"GET / HTTP/1.1\r\nHost: a\r\nConnection: close\r\n\r\n".as_slice();
    let (far, _asked) = block_on_there(&rt, write_all(far, asked))??;
    let (served, read) = block_on_there(
        &rt,
        join(serving, read_to_end(far, BytesMut::new(alloc))),
    )?;
    let (_end, read) = read?;
    assert_eq!(rt; error_of(alloc, &served)?.as_str(), "");
    assert!(rt; read.as_slice().starts_with(b"HTTP/1.1 204 No Content\r\n"));
    Ok(())
}

#[test]
fn frames_of_tokio_util_over_buffers_of_this_library(rt: HostRuntime) -> Result<(), Fail> {
    let alloc = rt.alloc();
    let (near, far) = duplex(alloc, 5)?;
    let (Ok(reader), Ok(writer)) = (
        BufReader::with_capacity(alloc, 3, near.compat()),
        BufWriter::with_capacity(alloc, 4, far.compat()),
    ) else {
        return Err(AllocError.into());
    };
    let codec = LinesCodec::new_with_max_length(40);
    let frames = FramedRead::new(alloc, reader.compat(), codec)?;
    let sink = FramedWrite::new(alloc, writer.compat(), LinesCodec::new_with_max_length(40))?;
    let sending = futures::stream::iter([Ok("one"), Ok("and two"), Ok("")]).forward(sink);
    let (sent, lines) = block_on_there(&rt, join(sending, frames.collect(alloc)))?;
    let lines = lines?;
    for line in &lines {
        assert_eq!(rt; error_of(alloc, line)?.as_str(), "");
    }
    assert_eq!(rt; error_of(alloc, &sent)?.as_str(), "");
    assert_eq!(rt; lines.len(), 3);
    assert!(rt; matches!(&lines[1], Ok(line) if line.as_str() == "and two"));
    Ok(())
}
