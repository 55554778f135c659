//! Tests of a server that is polled.
use framed::{CutError, FramesError, LineDelimited};
use futures_lite::Poll;
use futures_lite::future::BlockOn;
use futures_lite::io::{AsyncWrite, BufReader, BufWriter};
use lite_mock::{Marks, Order, Takes, polled};
use serving::{Responder, Serving, ServingError, wait_serving};
use std::alloc::{AllocError, AllocGlobal, Global};
use std::io::ErrorKind;
use std::random::RandomSource;
use std::sync::Wait;
use std::test::Fail;

/// Replies to a line with itself and `!`, and to `large` with 300,000 bytes more. Ends behind `quit`, and says that it has
/// no memory for `lack`. It counts what it was asked, and notes whether memory was refused.
#[derive(Drop)]
struct Loud {
    asked: u32,
    is_refused: bool,
}

impl Loud {
    fn new() -> Loud {
        Loud {
            asked: 0,
            is_refused: false,
        }
    }

    fn push(&mut self, bytes: &[u8], out: &mut Vec<u8>) -> Result<(), AllocError> {
        let pushed = out.extend_from_slice(bytes);
        self.is_refused = self.is_refused || pushed.is_err();
        match pushed {
            Ok(()) => Ok(()),
            Err(_) => Err(AllocError),
        }
    }

    /// Fails if memory was refused.
    fn had_memory(&self) -> Result<(), AllocError> {
        if self.is_refused {
            return Err(AllocError);
        }
        Ok(())
    }
}

impl Responder for Loud {
    type Error = CutError;

    ghost answers = { λ x line out y. ⊤ };

    ghost refuses = { λ x e words y. ⊤ };

    fn answer(&mut self, line: &[u8], out: &mut Vec<u8>) -> Result<bool, AllocError> {
        self.asked = self.asked.saturating_add(1);
        self.push(line, out)?;
        if line == b"lack".as_slice() {
            return Err(AllocError);
        }
        if line == b"large".as_slice() {
            for _ in 0..300 {
                self.push(&[b'x'; 1000], out)?;
            }
        }
        self.push(b"!", out)?;
        Ok(line != b"quit".as_slice())
    }

    fn refuse(
        &mut self,
        error: &FramesError<CutError>,
        out: &mut Vec<u8>,
    ) -> Result<(), AllocError> {
        if let FramesError::OutOfMemory = error {
            self.is_refused = true;
            return Err(AllocError);
        }
        self.push(b"bad", out)
    }
}

type Server<O> = Serving<BufReader<Marks>, LineDelimited, O, Loud>;

type Value = Result<(), ServingError<CutError>>;

fn server<O: Drop>(alloc: Global, input: Marks, output: O) -> Result<Server<O>, Fail> {
    let Ok(reader) = BufReader::with_capacity(alloc, 16, input) else {
        return Err(AllocError.into());
    };
    let lines = LineDelimited { max: 8 };
    Ok(Serving::new(alloc, reader, lines, output, Loud::new()))
}

/// A reader that hands out each of these chunks after a `Pending`.
fn chunks(alloc: Global, chunks: &[&[u8]]) -> Result<Marks, AllocError> {
    let mut input = Marks::new(alloc);
    for chunk in chunks {
        input.pending()?;
        input.chunk(chunk)?;
    }
    Ok(input)
}

/// The value within so many polls, if there is one. A refusal of memory is one of the test.
fn value<R: AllocGlobal + RandomSource, O: AsyncWrite>(
    rt: &R,
    server: &mut Server<O>,
    polls: usize,
) -> Result<Option<Value>, Fail> {
    match polled(rt, server, polls)?.pop() {
        None | Some(Poll::Pending) => Ok(None),
        Some(
            Poll::Ready(
                Err(
                    ServingError::Input(FramesError::OutOfMemory)
                    | ServingError::Output(ErrorKind::OutOfMemory),
                ),
            ),
        ) => Err(AllocError.into()),
        Some(Poll::Ready(value)) => Ok(Some(value)),
    }
}

#[test]
fn replies_come_in_order_however_bytes_are_cut(rt: HostRuntime) -> Result<(), Fail> {
    for size in 1..12 {
        let (mut input, mut output) = (Marks::new(rt.alloc()), Takes::new(rt.alloc()));
        for chunk in b"one\ntwo\r\n\nthree\n".chunks(size) {
            input.pending()?;
            input.chunk(chunk)?;
            output.order(Order::AtMost(size))?;
            output.order(Order::Wait)?;
        }
        let mut server = server(rt.alloc(), input, output)?;
        let value = value(&rt, &mut server, 100)?;
        let parts = server.into_parts();
        parts.responder.had_memory()?;
        assert_eq!(rt; value, Some(Ok(())));
        assert_eq!(rt; parts.replies.taken(), b"one!two!!three!".as_slice());
        assert_eq!(rt; parts.responder.asked, 4);
        assert!(rt; parts.waiting.is_empty());
    }
    Ok(())
}

#[test]
fn no_request_is_performed_behind_a_failed_write(rt: HostRuntime) -> Result<(), Fail> {
    let mut output = Takes::new(rt.alloc());
    output.order(Order::AtMost(2))?;
    output.order(Order::Fail(ErrorKind::BrokenPipe))?;
    let input = chunks(rt.alloc(), &[b"one\ntw", b"o\nthree\n"])?;
    let mut server = server(rt.alloc(), input, output)?;
    let value = value(&rt, &mut server, 10)?;
    let error = server.take_output_error();
    let parts = server.into_parts();
    parts.responder.had_memory()?;
    assert_eq!(rt;
        value,
        Some(Err(ServingError::Output(ErrorKind::BrokenPipe)))
    );
    assert!(rt; error.is_some());
    assert_eq!(rt; parts.replies.taken(), b"on".as_slice());
    assert_eq!(rt; parts.waiting.as_slice(), b"e!".as_slice());
    assert_eq!(rt; parts.responder.asked, 1);
    Ok(())
}

#[test]
fn it_reads_on_while_the_writer_is_pending(rt: HostRuntime) -> Result<(), Fail> {
    for (limit, asked) in [(0, 1), (3, 1), (4, 2), (8, 3), (100, 4)] {
        let mut output = Takes::new(rt.alloc());
        for _ in 0..20 {
            output.order(Order::Wait)?;
        }
        let input = chunks(rt.alloc(), &[b"one\n", b"two\n", b"six\n", b"ten\n"])?;
        let mut server = server(rt.alloc(), input, output)?.with_limit(limit);
        let value = value(&rt, &mut server, 10)?;
        let parts = server.into_parts();
        parts.responder.had_memory()?;
        assert_eq!(rt; value, None);
        assert_eq!(rt; parts.responder.asked, asked);
        assert_eq!(rt; parts.waiting.len(), 4 * asked as usize);
    }
    Ok(())
}

#[test]
fn replies_are_flushed_before_a_read_that_waits(rt: HostRuntime) -> Result<(), Fail> {
    let Ok(output) = BufWriter::new(rt.alloc(), Takes::new(rt.alloc())) else {
        return Err(AllocError.into());
    };
    let mut server = server(
        rt.alloc(),
        chunks(rt.alloc(), &[b"one\ntwo\nth", b"ree\n"])?,
        output,
    )?;
    // The first poll meets the reader's first `Pending`, and the second one its second.
    let value = value(&rt, &mut server, 2)?;
    let parts = server.into_parts();
    parts.responder.had_memory()?;
    assert_eq!(rt; value, None);
    assert_eq!(rt; parts.replies.get_ref().taken(), b"one!two!".as_slice());
    assert_eq!(rt; parts.requests.held.as_slice(), b"th".as_slice());
    Ok(())
}

/// Serves this input at once, and returns the value and what was written, asked and left unread.
fn served<R: AllocGlobal + RandomSource + Wait>(
    rt: &R,
    input: &[u8],
) -> Result<(Value, Vec<u8>, u32, usize), Fail> {
    let lines = LineDelimited { max: 8 };
    let replies = Vec::new(rt.alloc());
    let mut server = Serving::new(rt.alloc(), input, lines, replies, Loud::new());
    let value = wait_serving(&mut BlockOn::new(rt)?, rt, &mut server);
    if let Err(
        ServingError::Input(FramesError::OutOfMemory)
        | ServingError::Output(ErrorKind::OutOfMemory),
    ) = value
    {
        return Err(AllocError.into());
    }
    let parts = server.into_parts();
    parts.responder.had_memory()?;
    Ok((
        value,
        parts.replies,
        parts.responder.asked,
        parts.requests.reader.len(),
    ))
}

// The buffer keeps 64 KiB, or what may wait.
#[test]
fn the_memory_of_a_large_reply_is_given_back(rt: HostRuntime) -> Result<(), Fail> {
    for (limit, most) in [(0, 1 << 17), (1 << 18, 1 << 19)] {
        let (input, output) = (chunks(rt.alloc(), &[b"large\n"])?, futures_lite::io::sink());
        let mut server = server(rt.alloc(), input, output)?.with_limit(limit);
        let value = value(&rt, &mut server, 10)?;
        let parts = server.into_parts();
        parts.responder.had_memory()?;
        assert_eq!(rt; value, Some(Ok(())));
        assert!(rt; parts.waiting.is_empty());
        assert!(rt; parts.waiting.capacity() <= most);
    }
    Ok(())
}

#[test]
fn the_responder_ends_the_session(rt: HostRuntime) -> Result<(), Fail> {
    let (value, replies, asked, left) = served(&rt, b"one\nquit\ntwo\n")?;
    assert_eq!(rt; value, Ok(()));
    assert_eq!(rt; replies.as_slice(), b"one!quit!".as_slice());
    assert_eq!(rt; (asked, left), (2, 4));
    Ok(())
}

#[test]
fn last_words_are_written_to_a_malformed_request(rt: HostRuntime) -> Result<(), Fail> {
    let (value, replies, asked, _) = served(&rt, b"one\nmuch too long\ntwo\n")?;
    assert!(rt;
        matches!(
            value,
            Err(ServingError::Input(FramesError::NoFrame(CutError::TooLong(_))))
        )
    );
    assert_eq!(rt; replies.as_slice(), b"one!bad".as_slice());
    assert_eq!(rt; asked, 1);
    Ok(())
}

#[test]
fn no_part_of_a_reply_is_written_at_want_of_memory(rt: HostRuntime) -> Result<(), Fail> {
    let (value, replies, asked, left) = served(&rt, b"one\nlack\ntwo\n")?;
    assert_eq!(rt; value, Err(ServingError::OutOfMemory));
    assert_eq!(rt; replies.as_slice(), b"one!".as_slice());
    assert_eq!(rt; (asked, left), (2, 4));
    Ok(())
}
