//! Whole sessions over a reader and a writer that come in pieces, wait, fail and end.
use crate::tests::exchanges::Front;
use example_redis::error::{ReplyError, RequestError};
use example_redis::limits::Limits;
use example_redis::reply::Replies;
use example_redis::requests::Requests;
use example_redis::session::serve_session;
use example_redis::store::Store;
use framed::{FramedRead, ServeError};
use futures_lite::future::BlockOn;
use futures_lite::io::BufReader;
use lite_mock::{Marks, Order, Takes};
use std::alloc::{AllocGlobal, Global};
use std::io::ErrorKind;
use std::random::RandomSource;
use std::sync::Wait;
use std::test::Fail;

/// Requests of one client, each with its reply. One has none.
const EXCHANGES: [(&str, &str); 7] = [
    ("*3\r\n$3\r\nSET\r\n$1\r\nk\r\n$4\r\na\r\nb\r\n", "+OK\r\n"),
    ("*1\r\n$6\r\nDBSIZE\r\n", ":1\r\n"),
    ("GET k\r\n", "$4\r\na\r\nb\r\n"),
    ("*0\r\n", ""),
    ("PING\n", "+PONG\r\n"),
    (
        "*1\r\n$3\r\nSET\r\n",
        "-ERR wrong number of arguments for 'set' command\r\n",
    ),
    ("*2\r\n$3\r\nDEL\r\n$1\r\nk\r\n", ":1\r\n"),
];

type Served = Result<(), ServeError<RequestError, ReplyError>>;

fn front_of(alloc: Global, count: usize) -> Result<Front, Fail> {
    Front::of(alloc, &EXCHANGES, count)
}

/// Serves what the reader tells, from an empty store, through a buffer of a few bytes.
fn serve_told<R>(rt: &R, told: Marks, taken: &mut Takes) -> Result<Served, Fail>
where
    R: Wait + RandomSource + AllocGlobal,
{
    let alloc = rt.alloc();
    let Ok(reader) = BufReader::with_capacity(alloc, 64, told) else {
        return Err(Fail::from("no memory"));
    };
    let mut on = BlockOn::new(rt)?;
    let mut requests = FramedRead::new(alloc, reader, Requests::new(alloc, Limits::USUAL));
    let (mut encoder, mut store) = (Replies::USUAL, Store::new(alloc, usize::MAX));
    Ok(serve_session(&mut on, rt, &mut requests, taken, &mut encoder, &mut store))
}

#[test]
fn pieces_and_pendings_change_nothing(rt: HostRuntime) -> Result<(), Fail> {
    let all = front_of(rt.alloc(), usize::MAX)?;
    for at in 0..=all.sent.len() {
        let mut taken = Takes::new(rt.alloc());
        let told = all.cut_at(rt.alloc(), at)?;
        assert!(rt; serve_told(&rt, told, &mut taken)?.is_ok(), "cut at {at}");
        assert_eq!(rt; taken.taken(), all.replies.as_slice(), "cut at {at}");
    }
    let (told, mut taken) = all.by_bytes(rt.alloc())?;
    assert!(rt; serve_told(&rt, told, &mut taken)?.is_ok());
    assert_eq!(rt; taken.taken(), all.replies.as_slice());
    Ok(())
}

#[test]
fn the_whole_requests_are_answered_wherever_the_input_ends(rt: HostRuntime) -> Result<(), Fail> {
    let all = front_of(rt.alloc(), usize::MAX)?;
    for at in 0..=all.sent.len() {
        for fails in [false, true] {
            let front = front_of(rt.alloc(), at)?;
            let mut told = Marks::new(rt.alloc());
            told.chunk(&front.sent)?;
            if fails {
                told.fault(ErrorKind::ConnectionReset)?;
                told.chunk(b"\nDBSIZE\n")?;
            }
            let mut taken = Takes::new(rt.alloc());
            let is_right = match serve_told(&rt, told, &mut taken)? {
                Ok(()) => front.is_whole && !fails,
                Err(ServeError::Input(RequestError::Cut)) => !front.is_whole && !fails,
                Err(ServeError::Input(RequestError::Io(e))) => {
                    fails && e.kind() == ErrorKind::ConnectionReset
                }
                Err(_) => false,
            };
            assert!(rt; is_right, "at {at}");
            assert_eq!(rt; taken.taken(), front.replies.as_slice(), "at {at}");
        }
    }
    Ok(())
}

#[test]
fn an_error_of_the_writer_ends_the_session(rt: HostRuntime) -> Result<(), Fail> {
    let all = front_of(rt.alloc(), usize::MAX)?;
    for at in 0..all.replies.len() {
        let mut told = Marks::new(rt.alloc());
        told.chunk(&all.sent)?;
        let mut taken = Takes::new(rt.alloc());
        for _ in 0..at {
            taken.order(Order::AtMost(1))?;
        }
        taken.order(Order::Fail(ErrorKind::BrokenPipe))?;
        match serve_told(&rt, told, &mut taken)? {
            Err(ServeError::Output(e)) => assert_eq!(rt; e.kind(), ErrorKind::BrokenPipe),
            _ => return Err(Fail::from("the writer's error is not returned")),
        }
        assert_eq!(rt; taken.taken(), &all.replies[..at], "at {at}");
    }
    Ok(())
}
