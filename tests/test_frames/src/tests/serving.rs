//! Tests of a server of frames: what is read, performed and written, and in which order.
mod flushes;
mod polled;

use framed::{Answer, FramedRead, ServeError, Service, serve};
use futures_lite::future::BlockOn;
use futures_lite::io::{AsyncRead, AsyncWrite};
use futures_lite::{Context, Poll};
use lite_mock::{Marks, Order, Takes};
use std::alloc::{AllocError, AllocGlobal, Global};
use std::io::ErrorKind;
use std::random::RandomSource;
use std::sync::Wait;
use std::test::Fail;
use tokio_util::codec::{LinesCodec, LinesCodecError};

/// Replies to a line with itself, twice. Says nothing to an empty line, ends behind `quit`, and has no memory for `lack`.
/// It counts what it was asked.
#[derive(Drop)]
struct Twice {
    asked: u32,
}

impl Service for Twice {
    type Request = String;

    type Reply = String;

    type Error = LinesCodecError;

    ghost answers = { λ x line out y. ⊤ };

    ghost refuses = { λ x e words y. ⊤ };

    fn answer(&mut self, alloc: Global, line: String) -> Result<Answer<String>, AllocError> {
        self.asked = self.asked.saturating_add(1);
        if line.as_str() == "lack" {
            return Err(AllocError);
        }
        let goes_on = line.as_str() != "quit";
        let mut replies = Vec::new(alloc);
        if !line.is_empty() {
            replies.push(line.clone()?)?;
            replies.push(line)?;
        }
        Ok(Answer { replies, goes_on })
    }

    fn refuse(&mut self, alloc: Global, _: &LinesCodecError) -> Result<Vec<String>, AllocError> {
        Ok(Vec::from_array(alloc, [String::from_str(alloc, "too long")?])?)
    }
}

/// Fails if serving stopped because memory was refused.
fn had_memory(
    ended: &Result<(), ServeError<LinesCodecError, LinesCodecError>>,
) -> Result<(), AllocError> {
    let refused = match ended {
        Err(ServeError::Memory) => true,
        Err(ServeError::Input(LinesCodecError::Io(e)))
        | Err(ServeError::Encode(LinesCodecError::Io(e)))
        | Err(ServeError::Output(e)) => e.kind() == ErrorKind::OutOfMemory,
        _ => false,
    };
    if refused { Err(AllocError) } else { Ok(()) }
}

/// Serves these lines of at most 8 bytes; returns what was written, how often the service was asked and what is left of the lines.
fn served<R: Wait + RandomSource + AllocGlobal>(
    rt: &R,
    lines: &[u8],
) -> Result<
    (
        Result<(), ServeError<LinesCodecError, LinesCodecError>>,
        Vec<u8>,
        u32,
        usize,
    ),
    Fail,
> {
    let mut on = BlockOn::new(rt)?;
    let mut reader = lines;
    let mut replies = Vec::new(rt.alloc());
    let mut service = Twice { asked: 0 };
    let mut requests = FramedRead::new(rt.alloc(), &mut reader, LinesCodec::new_with_max_length(8));
    let result = serve(
        &mut on,
        rt,
        &mut requests,
        &mut replies,
        &mut LinesCodec::new(),
        &mut service,
    );
    drop(requests);
    had_memory(&result)?;
    Ok((result, replies, service.asked, reader.len()))
}

#[test]
fn each_reply_in_order(rt: HostRuntime) -> Result<(), Fail> {
    let (result, replies, asked, left) = served(&rt, b"one\n\ntwo")?;
    assert!(rt; result.is_ok());
    assert_eq!(rt; replies.as_slice(), b"one\none\ntwo\ntwo\n".as_slice());
    assert_eq!(rt; (asked, left), (3, 0));
    Ok(())
}

#[test]
fn nothing_behind_an_end_by_the_service(rt: HostRuntime) -> Result<(), Fail> {
    let (result, replies, asked, left) = served(&rt, b"one\nquit\ntwo\n")?;
    assert!(rt; result.is_ok());
    assert_eq!(rt; replies.as_slice(), b"one\none\nquit\nquit\n".as_slice());
    assert_eq!(rt; (asked, left), (2, 4));
    Ok(())
}

#[test]
fn last_words_to_a_malformed_request(rt: HostRuntime) -> Result<(), Fail> {
    let (result, replies, asked, _) = served(&rt, b"one\nmuch too long\ntwo\n")?;
    assert!(rt;
        matches!(
            result,
            Err(ServeError::Input(LinesCodecError::MaxLineLengthExceeded))
        )
    );
    assert_eq!(rt; replies.as_slice(), b"one\none\ntoo long\n".as_slice());
    assert_eq!(rt; asked, 1);
    Ok(())
}

#[test]
fn nothing_behind_a_failed_write(rt: HostRuntime) -> Result<(), Fail> {
    let mut on = BlockOn::new(&rt)?;
    let mut reader = b"one\ntwo\n".as_slice();
    let mut service = Twice { asked: 0 };
    let mut replies = Takes::new(rt.alloc());
    replies.order(Order::AtMost(3))?;
    replies.order(Order::Fail(ErrorKind::BrokenPipe))?;
    let mut requests = FramedRead::new(rt.alloc(), &mut reader, LinesCodec::new());
    let result = serve(
        &mut on,
        &rt,
        &mut requests,
        &mut replies,
        &mut LinesCodec::new(),
        &mut service,
    );
    had_memory(&result)?;
    if replies.taken() == b"too".as_slice() {
        // Those are last words: memory for a line was refused.
        return Err(AllocError.into());
    }
    assert!(rt; matches!(result, Err(ServeError::Output(e)) if e.kind() == ErrorKind::BrokenPipe));
    assert_eq!(rt; replies.taken(), b"one".as_slice());
    assert_eq!(rt; service.asked, 1);
    Ok(())
}
