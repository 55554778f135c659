//! Calls in a task of their own, and what they were told.
ghost use Rattle.std.specs.Prelude.{◌≡◌, ◌+◌, ◌++◌, ◌∷◌, [], length, IfErr, IfOk, Ok, Err};
ghost use Rattle.std.specs.Bool.{Decides};
ghost use Rattle.std.specs.List.{Contains};
ghost use Rattle.std.specs.declared.io.ErrorKind.TheVariants.{OutOfMemory};
ghost use Rattle.futures.specs.declared.task.Poll.TheVariants.{Ready};
ghost use Rattle.lite_io_base.specs.Marks.{by_kind as kind_of, ReadMark};
ghost use Rattle.lite_io_base.specs.WriteMarks.{WriteMark};
ghost use Rattle.lite_io_base.specs.WriteMarks.WriteMark.{closed, flushed};
ghost use Rattle.test_support.specs.Calls.{LeavesMarks, ReadTold, ReadsRoom, Refused, SaysRefused, WriteTold, finish_marks};

use futures::task::{Doorbell, Solo};
use lite_base::Poll;
use lite_io_base::{AsyncRead, AsyncSeek, AsyncWrite, IoSlice, IoSliceMut, SeekFrom};
use std::alloc::AllocGlobal;
use std::io;
use std::io::ErrorKind;
use std::random::RandomSource;

/// What one call answers: how many bytes, or the kind of its error.
pub type Answered = Poll<Result<usize, ErrorKind>>;

/// The answer with its error's kind in place of the error.
pub fn by_kind<T>(polled: Poll<io::Result<T>>) -> Poll<Result<T, ErrorKind>>
    ensures { result ≡ kind_of polled }
{
    match polled {
        Poll::Pending => Poll::Pending,
        Poll::Ready(Ok(x)) => Poll::Ready(Ok(x)),
        Poll::Ready(Err(e)) => Poll::Ready(Err(e.kind())),
    }
}

/// The answer, or an error where it says that memory was refused.
pub fn told<T: Drop>(answer: Poll<Result<T, ErrorKind>>) -> io::Result<Poll<Result<T, ErrorKind>>>
    ensures ok { IfOk result (λ same. (same ≡ answer) × (SaysRefused answer → ⊥)) }
    ensures err { IfErr result (λ _. SaysRefused answer) }
{
    match answer {
        Poll::Ready(Err(ErrorKind::OutOfMemory)) => Err(io::Error::from(ErrorKind::OutOfMemory)),
        Poll::Pending | Poll::Ready(_) => Ok(answer),
    }
}

/// What one read into `buf` answers, in a task of its own. An error is the system's: no memory or no random bytes for
/// the task, and then nothing was read.
pub fn try_read<R, S>(rt: &R, reader: &mut S, buf: &mut [u8]) -> io::Result<Answered>
where
    R: RandomSource + AllocGlobal,
    S: AsyncRead,
    ensures ran { IfOk result (λ answer. ReadTold S.reads reader.old answer buf.new reader.new) }
    ensures err { IfErr result (λ _. reader.new ≡ reader.old) }
{
    let solo = Solo::new(rt, Doorbell::spinning())?;
    let mut cx = solo.begin();
    let answer = by_kind(reader.poll_read(&mut cx, buf));
    cx.cancel();
    Ok(answer)
}

/// What one vectored read into these two buffers answers, in a task of its own. What stands in them then is not said. An
/// error as that of `try_read`.
pub fn try_read_both<R, S>(
    rt: &R,
    reader: &mut S,
    first: &mut [u8],
    second: &mut [u8],
) -> io::Result<Answered>
where
    R: RandomSource + AllocGlobal,
    S: AsyncRead,
    ensures ran { IfOk result
        (λ answer. ReadsRoom S.reads reader.old (length first.old + length second.old) answer reader.new) }
    ensures err { IfErr result (λ _. reader.new ≡ reader.old) }
{
    let solo = Solo::new(rt, Doorbell::spinning())?;
    let mut cx = solo.begin();
    let mut bufs = [IoSliceMut::new(first), IoSliceMut::new(second)];
    let answer = by_kind(reader.poll_read_vectored(&mut cx, &mut bufs));
    cx.cancel();
    Ok(answer)
}

/// What one read into `buf` answers, as `try_read`, but an answer that memory was refused is an error too.
pub fn read<R, S>(rt: &R, reader: &mut S, buf: &mut [u8]) -> io::Result<Answered>
where
    R: RandomSource + AllocGlobal,
    S: AsyncRead,
    ensures ran { IfOk result (λ answer. ReadTold S.reads reader.old answer buf.new reader.new) }
    ensures found { IfOk result (λ answer. SaysRefused answer → ⊥) }
    ensures err { IfErr result (λ _. Refused S.reads ReadMark.fault reader.old reader.new) }
{
    told(try_read(rt, reader, buf)?)
}

/// Whether one read into room for one byte gives this byte. An error as that of `read`.
pub fn reads_byte<R, S>(rt: &R, reader: &mut S, byte: u8) -> io::Result<bool>
where
    R: RandomSource + AllocGlobal,
    S: AsyncRead,
    ensures ran { IfOk result (λ is. LeavesMarks S.reads reader.old is (ReadMark.byte byte ∷ []) reader.new) }
    ensures err { IfErr result (λ _. Refused S.reads ReadMark.fault reader.old reader.new) }
{
    let mut buf = [0u8];
    let answer = read(rt, reader, &mut buf)?;
    Ok(matches!(answer, Poll::Ready(Ok(1))) && buf[0] == byte)
}

/// What one write of `bytes` answers, in a task of its own. An error is the system's: no memory or no random bytes for
/// the task, and then nothing was written.
pub fn try_write<R, S>(rt: &R, writer: &mut S, bytes: &[u8]) -> io::Result<Answered>
where
    R: RandomSource + AllocGlobal,
    S: AsyncWrite,
    ensures ran { IfOk result (λ answer. WriteTold S.writes writer.old answer bytes.now writer.new) }
    ensures err { IfErr result (λ _. writer.new ≡ writer.old) }
{
    let solo = Solo::new(rt, Doorbell::spinning())?;
    let mut cx = solo.begin();
    let answer = by_kind(writer.poll_write(&mut cx, bytes));
    cx.cancel();
    Ok(answer)
}

/// What one write from these two buffers answers, in a task of its own. An error as that of `try_write`.
pub fn try_write_both<R, S>(
    rt: &R,
    writer: &mut S,
    first: &[u8],
    second: &[u8],
) -> io::Result<Answered>
where
    R: RandomSource + AllocGlobal,
    S: AsyncWrite,
    ensures ran { IfOk result (λ answer. WriteTold S.writes writer.old answer (first.now ++ second.now) writer.new) }
    ensures err { IfErr result (λ _. writer.new ≡ writer.old) }
{
    let solo = Solo::new(rt, Doorbell::spinning())?;
    let mut cx = solo.begin();
    let bufs = [IoSlice::new(first), IoSlice::new(second)];
    let answer = by_kind(writer.poll_write_vectored(&mut cx, &bufs));
    cx.cancel();
    Ok(answer)
}

/// What a seek to `pos` answers, in bytes from the start, in a task of its own. An error is the system's: no memory or no
/// random bytes for the task, and then nothing was sought.
pub fn seek<R, S>(rt: &R, seeker: &mut S, pos: SeekFrom) -> io::Result<Poll<Result<u64, ErrorKind>>>
where
    R: RandomSource + AllocGlobal,
    S: AsyncSeek,
    ensures ran { IfOk result (λ answer. S.seeks seeker.old pos answer seeker.new) }
    ensures err { IfErr result (λ _. seeker.new ≡ seeker.old) }
{
    let solo = Solo::new(rt, Doorbell::spinning())?;
    let mut cx = solo.begin();
    let answer = by_kind(seeker.poll_seek(&mut cx, pos));
    cx.cancel();
    Ok(answer)
}

/// What one write of `bytes` answers, as `try_write`, but an answer that memory was refused is an error too.
pub fn write<R, S>(rt: &R, writer: &mut S, bytes: &[u8]) -> io::Result<Answered>
where
    R: RandomSource + AllocGlobal,
    S: AsyncWrite,
    ensures ran { IfOk result (λ answer. WriteTold S.writes writer.old answer bytes.now writer.new) }
    ensures found { IfOk result (λ answer. SaysRefused answer → ⊥) }
    ensures err { IfErr result (λ _. Refused S.writes WriteMark.fault writer.old writer.new) }
{
    told(try_write(rt, writer, bytes)?)
}

/// Whether a flush or a close is done. An error: memory was refused.
pub fn is_done(polled: Poll<io::Result<()>>) -> io::Result<bool>
    ensures ok { IfOk result (λ is. Decides is (polled ≡ Ready (Ok tt)) × (SaysRefused (kind_of polled) → ⊥)) }
    ensures err { IfErr result (λ _. SaysRefused (kind_of polled)) }
{
    Ok(matches!(told(by_kind(polled))?, Poll::Ready(Ok(()))))
}

/// Whether a flush and then a close are done; both calls are made. An error: memory was refused to one of them, or it is
/// the system's, and then none was made.
pub fn finishes<R, S>(rt: &R, writer: &mut S) -> io::Result<bool>
where
    R: RandomSource + AllocGlobal,
    S: AsyncWrite,
    ensures ran { IfOk result (λ is. LeavesMarks S.writes writer.old is (flushed ∷ closed ∷ []) writer.new) }
    ensures err { IfErr result (λ _. Refused S.writes WriteMark.fault writer.old writer.new) }
{
    let solo = Solo::new(rt, Doorbell::spinning())?;
    let mut cx = solo.begin();
    let was_flushed = writer.poll_flush(&mut cx);
    let was_closed = writer.poll_close(&mut cx);
    cx.cancel();
    are_done(was_flushed, was_closed)
}

#[tactic(auto, using(crate::proofs::Finish::second_refused))]
fn are_done(was_flushed: Poll<io::Result<()>>, was_closed: Poll<io::Result<()>>) -> io::Result<bool>
    ensures ok { IfOk result (λ are. Decides are (finish_marks was_flushed was_closed ≡ flushed ∷ closed ∷ [])) }
    ensures err { IfErr result (λ _. Contains (finish_marks was_flushed was_closed) (WriteMark.fault OutOfMemory)) }
{
    Ok(is_done(was_flushed)? && is_done(was_closed)?)
}
