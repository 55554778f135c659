//! Whole sessions over readers and writers that come in pieces, wait, fail and end.
use crate::tests::exchanges::Front;
use example_lines::session::serve_session;
use framed::{FrameError, FramedRead, LineDelimited, ServeError};
use futures_lite::future::BlockOn;
use futures_lite::io::{AsyncBufRead, AsyncWrite, BufReader, BufWriter, CountedRead};
use lite_mock::{Marks, Order, Takes};
use std::alloc::{AllocGlobal, Global};
use std::io::ErrorKind;
use std::random::RandomSource;
use std::sync::Wait;
use std::test::Fail;

/// How many bytes a line has at most.
const LIMIT: usize = 16;

/// Requests of one client, each with its reply.
const EXCHANGES: [(&str, &str); 8] = [
    ("SET k a b\r\n", "stored\n"),
    ("COUNT\n", "count 1\n"),
    ("GET k\n", "value a b\n"),
    ("\n", "error: unknown request\n"),
    ("DEL k\r\n", "deleted\n"),
    ("SET k\n", "error: SET takes a key and a value\n"),
    ("COUNT\r\n", "count 0\n"),
    ("DEL k\n", "no value\n"),
];

type Served = Result<(), ServeError<FrameError, FrameError>>;

fn front_of(alloc: Global, count: usize) -> Result<Front, Fail> {
    Front::of(alloc, &EXCHANGES, count)
}

/// How many bytes the requests have up to the one whose reply has the byte at this place.
fn requested_by(place: usize) -> usize {
    let (mut requested, mut replied) = (0usize, 0usize);
    for (request, reply) in EXCHANGES {
        requested = requested.saturating_add(request.len());
        replied = replied.saturating_add(reply.len());
        if place < replied {
            break;
        }
    }
    requested
}

fn serve_lines<R, T, O>(rt: &R, reader: T, writer: &mut O) -> Result<Served, Fail>
where
    R: Wait + RandomSource + AllocGlobal,
    T: AsyncBufRead + CountedRead + Drop,
    O: AsyncWrite,
    requires { T.ranks.counts reader }
{
    let mut on = BlockOn::new(rt)?;
    let mut requests = FramedRead::new(rt.alloc(), reader, LineDelimited { max: LIMIT });
    Ok(serve_session(&mut on, rt, &mut requests, writer))
}

/// Serves what the reader tells, through a buffer of a few bytes.
fn serve_told<R, O>(rt: &R, told: Marks, writer: &mut O) -> Result<Served, Fail>
where
    R: Wait + RandomSource + AllocGlobal,
    O: AsyncWrite,
{
    let Ok(reader) = BufReader::with_capacity(rt.alloc(), 64, told) else {
        return Err(Fail::from("no memory"));
    };
    serve_lines(rt, reader, writer)
}

#[test]
fn pieces_and_pendings_change_nothing(rt: HostRuntime) -> Result<(), Fail> {
    let all = front_of(rt.alloc(), usize::MAX)?;
    for at in 0..=all.sent.len() {
        let mut writer = Takes::new(rt.alloc());
        let told = all.cut_at(rt.alloc(), at)?;
        assert!(rt; serve_told(&rt, told, &mut writer)?.is_ok(), "cut at {at}");
        assert_eq!(rt; writer.taken(), all.replies.as_slice(), "cut at {at}");
    }
    let (told, mut writer) = all.by_bytes(rt.alloc())?;
    assert!(rt; serve_told(&rt, told, &mut writer)?.is_ok());
    assert_eq!(rt; writer.taken(), all.replies.as_slice());
    Ok(())
}

// What was not flushed is lost with the buffer.
#[test]
fn an_error_of_the_reader_comes_behind_the_replies(rt: HostRuntime) -> Result<(), Fail> {
    let all = front_of(rt.alloc(), usize::MAX)?;
    for at in 0..=all.sent.len() {
        let Front { sent, replies, .. } = front_of(rt.alloc(), at)?;
        let mut told = Marks::new(rt.alloc());
        told.chunk(&sent)?;
        told.fault(ErrorKind::ConnectionReset)?;
        told.chunk(b"\nCOUNT\n")?;
        let mut taken = Takes::new(rt.alloc());
        let Ok(mut writer) = BufWriter::new(rt.alloc(), &mut taken) else {
            return Err(Fail::from("no memory"));
        };
        let served = serve_told(&rt, told, &mut writer)?;
        drop(writer);
        match served {
            Err(ServeError::Input(FrameError::Io(e))) => {
                assert_eq!(rt; e.kind(), ErrorKind::ConnectionReset, "at {at}");
            }
            _ => return Err(Fail::from("the reader's error is not returned")),
        }
        assert_eq!(rt; taken.taken(), replies.as_slice(), "at {at}");
    }
    Ok(())
}

// The requests behind it are still in the reader.
#[test]
fn an_error_of_the_writer_ends_the_session(rt: HostRuntime) -> Result<(), Fail> {
    let all = front_of(rt.alloc(), usize::MAX)?;
    for at in 0..all.replies.len() {
        let mut writer = Takes::new(rt.alloc());
        for _ in 0..at {
            writer.order(Order::AtMost(1))?;
        }
        writer.order(Order::Fail(ErrorKind::BrokenPipe))?;
        let mut reader = all.sent.as_slice();
        match serve_lines(&rt, &mut reader, &mut writer)? {
            Err(ServeError::Output(e)) => assert_eq!(rt; e.kind(), ErrorKind::BrokenPipe),
            _ => return Err(Fail::from("the writer's error is not returned")),
        }
        assert_eq!(rt; writer.taken(), &all.replies[..at], "at {at}");
        let taken = all.sent.len().saturating_sub(reader.len());
        assert_eq!(rt; taken, requested_by(at), "at {at}");
    }
    Ok(())
}

// Each request comes alone, so each reply is flushed.
#[test]
fn an_error_of_a_flush_ends_the_session(rt: HostRuntime) -> Result<(), Fail> {
    let mut replies = Vec::new(rt.alloc());
    for (at, (_, reply)) in EXCHANGES.iter().enumerate() {
        let mut told = Marks::new(rt.alloc());
        for (request, _) in EXCHANGES {
            told.chunk(request.as_bytes())?;
        }
        let mut taken = Takes::new(rt.alloc());
        for _ in 0..at {
            taken.order(Order::AtMost(usize::MAX))?;
        }
        taken.order(Order::Fail(ErrorKind::BrokenPipe))?;
        let Ok(mut writer) = BufWriter::new(rt.alloc(), &mut taken) else {
            return Err(Fail::from("no memory"));
        };
        let served = serve_told(&rt, told, &mut writer)?;
        drop(writer);
        assert!(rt; matches!(served, Err(ServeError::Output(_))), "at {at}");
        assert_eq!(rt; taken.taken(), replies.as_slice(), "at {at}");
        replies.extend_from_slice(reply.as_bytes())?;
    }
    Ok(())
}

#[test]
fn the_whole_lines_are_answered_wherever_the_input_ends(rt: HostRuntime) -> Result<(), Fail> {
    let all = front_of(rt.alloc(), usize::MAX)?;
    for at in 0..=all.sent.len() {
        let mut cut = front_of(rt.alloc(), at)?;
        let mut writer = Takes::new(rt.alloc());
        let served = serve_lines(&rt, cut.sent.as_slice(), &mut writer)?;
        if cut.is_whole {
            assert!(rt; served.is_ok(), "at {at}");
        } else {
            assert!(rt;
                matches!(served, Err(ServeError::Input(FrameError::CutOff))),
                "at {at}"
            );
            cut.replies
                .extend_from_slice(b"error: the last line has no newline\n")?;
        }
        assert_eq!(rt; writer.taken(), cut.replies.as_slice(), "at {at}");
    }
    Ok(())
}

#[test]
fn a_line_at_its_limit(rt: HostRuntime) -> Result<(), Fail> {
    for last in [b'v', b'\r'] {
        for size in LIMIT - 1..=LIMIT + 1 {
            let mut sent = Vec::from_slice(rt.alloc(), b"SET k v")?;
            for _ in 8..size {
                sent.push(b'v')?;
            }
            sent.push(last)?;
            sent.extend_from_slice(b"\nCOUNT\n")?;
            let mut writer = Takes::new(rt.alloc());
            let served = serve_lines(&rt, sent.as_slice(), &mut writer)?;
            if size <= LIMIT {
                assert!(rt; served.is_ok(), "with {size} bytes");
                assert_eq!(rt; writer.taken(), b"stored\ncount 1\n".as_slice());
            } else {
                assert!(rt; matches!(served, Err(ServeError::Input(FrameError::TooLong(_)))));
                assert_eq!(rt; writer.taken(), b"error: the line is too long\n".as_slice());
            }
        }
    }
    Ok(())
}
