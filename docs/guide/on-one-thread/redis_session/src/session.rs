//! A session that is polled.
ghost use Rattle.std.specs.Prelude.{◌≡◌, ◌++◌, IfOk};
ghost use Rattle.futures.specs.Poll.{OnPending};
ghost use Rattle.futures_lite.specs.Contexts.{Keeps};
ghost use Rattle.redis_session.specs.Talks.{TalksOn, last_line};

use crate::client::Client;
use crate::cutter::RequestCutter;
use crate::pushing::push_line;
use crate::refusal::Refusal;
use framed::FramesParts;
use futures_lite::io::{AsyncBufRead, AsyncWrite, CountedRead};
use futures_lite::{Context, Future, Poll};
use serving::{Serving, ServingError, ServingParts};
use std::alloc::AllocError;

/// Polls a session. Each request that it takes is replied to in turn by the commands, and the writer takes exactly the
/// replies, in order.
///
/// # Errors
///
/// Those of [`Serving`].
pub fn poll_session<R, W>(
    session: &mut Serving<R, RequestCutter, W, Client>,
    cx: &mut Context<'_>,
) -> Poll<Result<(), ServingError<Refusal>>>
where
    R: AsyncBufRead + CountedRead,
    W: AsyncWrite,
    requires { R.ranks.counts session.old.requests.reader }
    ensures again { OnPending result (R.ranks.counts session.new.requests.reader) }
    ensures talks { TalksOn W.writes session.old result session.new }
    ensures context { Keeps cx.old cx.new }
{
    session.poll(cx)
}

/// What is left of a session: its reader, its writer, and the bytes that are still to be written.
#[derive(Drop)]
pub struct Left<R, W> {
    pub reader: R,
    pub writer: W,
    pub out: Vec<u8>,
}

/// Leaves a session. The last words, if there are any, are an error behind the replies that wait.
///
/// # Errors
///
/// Memory was refused for the last words.
pub fn leave_session<R, W>(
    session: Serving<R, RequestCutter, W, Client>,
    words: &[u8],
) -> Result<Left<R, W>, AllocError>
where
    R: AsyncBufRead + Drop,
    W: AsyncWrite + Drop,
    ensures { IfOk result (λ left. (left.writer ≡ session.replies) × (left.out.items ≡ session.waiting ++ last_line words.now)) }
{
    let ServingParts {
        requests,
        replies: writer,
        responder: _,
        waiting: mut out,
    } = session.into_parts();
    let FramesParts {
        reader,
        cutter: _,
        held: _,
    } = requests;
    if !words.is_empty() {
        push_line(b"-", words, &mut out)?;
    }
    Ok(Left {
        reader,
        writer,
        out,
    })
}
