ghost use Rattle.std.specs.Prelude.{◌≡◌, ⊤};

use super::polls::told;
use futures::task::{Context, Doorbell, Solo, Source};
use futures_lite::AsyncReadExt;
use lite_base::{OkCounted, Poll, Stream};
use lite_io_base::{AsyncRead, ReadSpec, WriteSpec};
use lite_mock::Marks;
use lite_read::make::{bytes, read_exact, read_to_end};
use std::io;
use std::io::ErrorKind;
use std::test::Fail;
use test_support::{Answered, answers, is_woken, ranked, try_read_both};

/// What the polls of a stream answer, errors by their kinds.
fn spelled<S>(
    rt: &HostRuntime,
    stream: &mut S,
    polls: usize,
) -> Result<Vec<Poll<Option<Result<u8, ErrorKind>>>>, Fail>
where
    S: Stream<Item = io::Result<u8>>,
    requires { S.can_poll stream.old }
    ensures { S.can_poll stream.new }
{
    let mut spelled = Vec::new(rt.alloc());
    for answer in answers(rt, stream, polls)? {
        spelled.push(match answer {
            Poll::Pending => Poll::Pending,
            Poll::Ready(None) => Poll::Ready(None),
            Poll::Ready(Some(Ok(byte))) => Poll::Ready(Some(Ok(byte))),
            Poll::Ready(Some(Err(e))) => Poll::Ready(Some(Err(e.kind()))),
        })?;
    }
    Ok(spelled)
}

/// Asks for a rank over Ok items by the bound alone, and hands the stream back.
fn ok_ranked<S: OkCounted>(stream: S) -> S
    ensures { result ≡ stream }
{
    stream.is_ok_counted();
    stream
}

fn byte(x: u8) -> Poll<Option<Result<u8, ErrorKind>>> {
    Poll::Ready(Some(Ok(x)))
}

#[test]
fn an_interrupted_read_wakes_its_task(rt: HostRuntime) -> Result<(), Fail> {
    for (kind, wakes) in [(ErrorKind::Interrupted, true), (ErrorKind::Other, false)] {
        let mut marks = Marks::new(rt.alloc());
        marks.fault(kind)?;
        let mut stream = bytes(marks);
        let solo = Solo::new(&rt, Doorbell::spinning())?;
        let mut slot = None;
        let mut cx = solo.begin();
        assert_eq!(rt; stream.poll_next(&mut cx).is_pending(), wakes);
        let _: Poll<()> = cx.register(&Source::new(), &mut slot);
        cx.park();
        let is_woken = match solo.sleep() {
            Some(asleep) => {
                asleep.end();
                false
            }
            None => true,
        };
        assert_eq!(rt; is_woken, wakes);
    }
    Ok(())
}

/// A reader that is pending for ever, and that nothing wakes.
#[derive(Drop)]
struct Still;

impl ReadSpec for Still {
    ghost reads = { λ _ _ _. ⊤ };

    ghost read_laws = { record { rests = λ x. tt; follows = λ x y z l m h k. tt } };
}

impl WriteSpec for Still {
    ghost writes = { λ _ _ _. ⊤ };

    ghost write_laws = { record { rests = λ x. tt; follows = λ x y z l m h k. tt } };
}

impl AsyncRead for Still {
    fn poll_read(&mut self, _cx: &mut Context<'_>, _buf: &mut [u8]) -> Poll<io::Result<usize>> {
        Poll::Pending
    }
}

/// Whether the next poll of the bytes of the reader is pending, and wakes nothing.
fn waits_asleep<R: AsyncRead + Drop>(rt: &HostRuntime, reader: R) -> Result<bool, Fail> {
    let solo = Solo::new(rt, Doorbell::spinning())?;
    let source = Source::new();
    let mut slot = None;
    let mut cx = solo.begin();
    let is_pending = bytes(reader).poll_next(&mut cx).is_pending();
    let _: Poll<()> = cx.register(&source, &mut slot);
    cx.park();
    Ok(is_pending && !is_woken(&solo))
}

#[test]
fn a_pending_read_wakes_nobody(rt: HostRuntime) -> Result<(), Fail> {
    assert!(rt; waits_asleep(&rt, Still)?);
    assert!(rt; waits_asleep(&rt, Still.with_budget(1))?);
    Ok(())
}

#[test]
fn the_bytes_can_be_read_too(rt: HostRuntime) -> Result<(), Fail> {
    let text: &[u8] = b"abcdefg";
    let mut stream = ok_ranked(ranked(bytes(text)));
    let first = spelled(&rt, &mut stream, 1)?;
    assert_eq!(rt; first, vec![in rt.alloc(); byte(b'a')]?);
    let mut buf = [b'-'; 2];
    let answers = told(&rt, &mut read_exact(&mut stream, &mut buf))?;
    assert_eq!(rt; answers, vec![in rt.alloc(); Poll::Ready(Ok(()))]?);
    assert_eq!(rt; buf, *b"bc");
    let mut second = [b'-'; 1];
    let answered: Answered = try_read_both(&rt, &mut stream, &mut buf, &mut second)?;
    assert_eq!(rt; answered, Poll::Ready(Ok(3)));
    assert_eq!(rt; (buf, second), (*b"de", *b"f"));
    let mut rest = Vec::new(rt.alloc());
    let answers = told(&rt, &mut read_to_end(&mut stream, &mut rest))?;
    assert_eq!(rt; answers, vec![in rt.alloc(); Poll::Ready(Ok(1))]?);
    assert_eq!(rt; rest.as_slice(), b"g".as_slice());
    Ok(())
}
