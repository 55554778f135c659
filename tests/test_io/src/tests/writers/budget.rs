ghost use Rattle.lite_base.specs.Ranks.{number_ranks};
ghost use Rattle.test_io.specs.Budget.{Within, within_counting, within_laws};

use lite_base::{Context, Poll};
use lite_bridge::AssertAsync;
use lite_io_base::{AsyncRead, CountedRead, ReadSpec};
use lite_read::make::read_to_end;
use lite_write::make::{copy, write_all};
use std::alloc::AllocError;
use std::path::PathBuf;
use std::test::Fail;
use std::{env, fs, io, process};
use test_support::polled;

/// Hands on so many bytes and errors of another reader, and then ends: a file has no rank, and this has one.
#[derive(Drop)]
struct Budget<R> {
    inner: R,
    left: usize,
}

impl<R> ReadSpec for Budget<R> {
    ghost reads = { Within (λ x. x.left) };

    ghost read_laws = { within_laws (λ x. x.left) };
}

#[tactic(auto, using(crate::specs::Budget::moved_within))]
impl<R: AsyncRead> AsyncRead for Budget<R> {
    ghost registers = { λ x. R.registers x.inner };

    fn poll_read(&mut self, cx: &mut Context<'_>, buf: &mut [u8]) -> Poll<io::Result<usize>> {
        if self.left == 0 {
            return Poll::Ready(Ok(0));
        }
        let room = buf.len().min(self.left);
        match self.inner.poll_read(cx, &mut buf[..room]) {
            Poll::Ready(Ok(n)) => {
                self.left -= n;
                Poll::Ready(Ok(n))
            }
            Poll::Ready(Err(e)) => {
                self.left -= 1;
                Poll::Ready(Err(e))
            }
            Poll::Pending => Poll::Pending,
        }
    }
}

impl<R: AsyncRead> CountedRead for Budget<R> {
    ghost ranks = { number_ranks (λ x. x.left) };

    ghost counting = { within_counting (λ x. x.left) };
}

/// A place of this test's own among the system's temporary files.
fn place(rt: &HostRuntime, name: &str) -> Result<PathBuf, Fail> {
    let mut path = env::temp_dir(rt)?;
    path.push(format!(in rt.alloc();
        "test_writers_{name}_{}",
        process::id(rt.process())
    )?.as_str())?;
    Ok(path)
}

/// The value of a future that gave it in its first poll.
pub(super) fn at_once<T: Drop>(mut answers: Vec<Poll<io::Result<T>>>) -> Result<T, Fail> {
    match answers.pop() {
        Some(Poll::Ready(value)) => Ok(value?),
        _ => Err(Fail::from("it is pending")),
    }
}

#[test]
fn a_file_is_copied_to_a_file(rt: HostRuntime) -> Result<(), Fail> {
    let mut bytes: Vec<u8> = Vec::with_capacity(rt.alloc(), 20_000)?;
    for i in 0..20_000u32 {
        bytes.push((i % 251) as u8)?;
    }
    let (from, to) = (place(&rt, "from")?, place(&rt, "to")?);
    let mut source = AssertAsync::new(fs::create(&rt, &from)?);
    let written = polled(&rt, &mut write_all(&mut source, &bytes), 1)?;

    let inner = AssertAsync::new(fs::open(&rt, &from)?);
    let reader = Budget {
        inner,
        left: 1 << 30,
    };
    let Ok(mut copying) = copy(rt.alloc(), reader, AssertAsync::new(fs::create(&rt, &to)?)) else {
        return Err(AllocError.into());
    };
    let copied = polled(&rt, &mut copying, 1)?;

    let inner = AssertAsync::new(fs::open(&rt, &to)?);
    let mut reader = Budget {
        inner,
        left: 1 << 30,
    };
    let mut read = Vec::new(rt.alloc());
    let ended = polled(&rt, &mut read_to_end(&mut reader, &mut read), 1)?;
    fs::remove_file(&rt, &from)?;
    fs::remove_file(&rt, &to)?;
    at_once(written)?;
    assert_eq!(rt; at_once(copied)?, 20_000);
    assert_eq!(rt; at_once(ended)?, 20_000);
    assert_eq!(rt; read.as_slice(), bytes.as_slice());
    Ok(())
}
