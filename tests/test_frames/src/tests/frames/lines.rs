use framed::FramedRead;
use futures_lite::Poll;
use futures_lite::io::BufReader;
use lite_mock::Marks;
use std::alloc::AllocError;
use std::io::ErrorKind;
use std::test::Fail;
use test_support::answers;
use tokio_util::codec::{LinesCodec, LinesCodecError};

type Lines = FramedRead<BufReader<Marks>, LinesCodec>;

fn lines_of(rt: &HostRuntime, max: usize, chunks: &[&[u8]]) -> Result<Lines, Fail> {
    let mut marks = Marks::new(rt.alloc());
    for chunk in chunks {
        marks.chunk(chunk)?;
    }
    let Ok(reader) = BufReader::with_capacity(rt.alloc(), 4, marks) else {
        return Err(AllocError.into());
    };
    let codec = LinesCodec::new_with_max_length(max);
    Ok(FramedRead::new(rt.alloc(), reader, codec))
}

#[derive(Debug, PartialEq, Eq, Drop)]
enum Came {
    Line(String),
    TooLong,
    Ended,
}

fn came(answer: Poll<Option<Result<String, LinesCodecError>>>) -> Result<Came, Fail> {
    match answer {
        Poll::Pending => Err(Fail::from("the reader is never pending")),
        Poll::Ready(None) => Ok(Came::Ended),
        Poll::Ready(Some(Ok(line))) => Ok(Came::Line(line)),
        Poll::Ready(Some(Err(LinesCodecError::MaxLineLengthExceeded))) => Ok(Came::TooLong),
        Poll::Ready(Some(Err(LinesCodecError::Io(e)))) => {
            if e.kind() == ErrorKind::OutOfMemory {
                return Err(AllocError.into());
            }
            Err(Fail::from("no other error comes"))
        }
    }
}

#[test]
fn the_last_line_needs_no_newline(rt: HostRuntime) -> Result<(), Fail> {
    let mut lines = lines_of(&rt, 100, &[b"one\r\nt", b"wo\n\n", b"last"])?;
    let expected = [
        Came::Line(String::from_str(rt.alloc(), "one")?),
        Came::Line(String::from_str(rt.alloc(), "two")?),
        Came::Line(String::from_str(rt.alloc(), "")?),
        Came::Line(String::from_str(rt.alloc(), "last")?),
        Came::Ended,
        Came::Ended,
    ];
    for (answer, expected) in answers(&rt, &mut lines, 6)?.into_iter().zip(expected) {
        assert_eq!(rt; came(answer)?, expected);
    }
    Ok(())
}

#[test]
fn a_line_that_is_too_long_is_the_last_item(rt: HostRuntime) -> Result<(), Fail> {
    let mut lines = lines_of(&rt, 5, &[b"five5\n", b"sixsix\n", b"ok\n"])?;
    let expected = [
        Came::Line(String::from_str(rt.alloc(), "five5")?),
        Came::TooLong,
        Came::Ended,
        Came::Ended,
    ];
    for (answer, expected) in answers(&rt, &mut lines, 4)?.into_iter().zip(expected) {
        assert_eq!(rt; came(answer)?, expected);
    }
    Ok(())
}
