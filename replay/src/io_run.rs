//! How a case of I/O runs, and how its answers are spelled.
use crate::words::Fault;
use futures_lite::{Context, Future, Poll};
use std::alloc::Global;
use std::io::{self, ErrorKind};

/// A run of a case: its memory, its context, how many polls are left, and the answers so far.
#[derive(Drop)]
pub(crate) struct Run<'a, 'ctx> {
    pub(crate) alloc: Global,
    cx: &'a mut Context<'ctx>,
    polls: usize,
    out: &'a mut String,
}

impl<'a, 'ctx> Run<'a, 'ctx> {
    pub(crate) fn new(
        alloc: Global,
        cx: &'a mut Context<'ctx>,
        polls: usize,
        out: &'a mut String,
    ) -> Run<'a, 'ctx> {
        Run {
            alloc,
            cx,
            polls,
            out,
        }
    }

    pub(crate) fn has_polls(&self) -> bool {
        self.polls > 0
    }

    /// The context of one more poll.
    pub(crate) fn poll(&mut self) -> &mut Context<'ctx> {
        self.polls = self.polls.saturating_sub(1);
        &mut *self.cx
    }

    /// Polls a future until its value, or until no polls are left.
    pub(crate) fn finish<F: Future<Output: Drop>>(
        &mut self,
        f: &mut F,
    ) -> Result<Option<F::Output>, Fault> {
        while self.has_polls() {
            match f.poll(self.poll()) {
                Poll::Ready(value) => {
                    self.out.push_str("=")?;
                    return Ok(Some(value));
                }
                Poll::Pending => self.word("P")?,
            }
        }
        Ok(None)
    }

    /// A word as it is.
    pub(crate) fn word(&mut self, word: &str) -> Result<(), Fault> {
        self.out.push_str(word)?;
        Ok(self.out.push_str(",")?)
    }

    /// A word that more follows.
    pub(crate) fn part(&mut self, word: &str) -> Result<(), Fault> {
        Ok(self.out.push_str(word)?)
    }

    pub(crate) fn number(&mut self, n: u64) -> Result<(), Fault> {
        let mut buffer = itoa::Buffer::new();
        self.word(buffer.format(n))
    }

    /// Two digits for each byte.
    pub(crate) fn digits(&mut self, bytes: &[u8]) -> Result<(), Fault> {
        for b in bytes {
            self.out.push_str(DIGITS[(*b / 16) as usize])?;
            self.out.push_str(DIGITS[(*b % 16) as usize])?;
        }
        Ok(())
    }

    /// Bytes as `x6162`.
    pub(crate) fn bytes(&mut self, bytes: &[u8]) -> Result<(), Fault> {
        self.part("x")?;
        self.digits(bytes)?;
        self.part(",")
    }

    pub(crate) fn kind(&mut self, kind: ErrorKind) -> Result<(), Fault> {
        self.word(match kind {
            ErrorKind::Other => "!Other",
            ErrorKind::Interrupted => "!Interrupted",
            ErrorKind::TimedOut => "!TimedOut",
            ErrorKind::UnexpectedEof => "!UnexpectedEof",
            ErrorKind::InvalidData => "!InvalidData",
            ErrorKind::InvalidInput => "!InvalidInput",
            ErrorKind::WriteZero => "!WriteZero",
            ErrorKind::WouldBlock => "!WouldBlock",
            ErrorKind::OutOfMemory => "!OutOfMemory",
            _ => "!else",
        })
    }

    /// A value, or the kind of an error.
    pub(crate) fn value<T: Spelled + Drop>(&mut self, value: io::Result<T>) -> Result<(), Fault> {
        match value {
            Ok(x) => x.spell(self),
            Err(e) => self.kind(e.kind()),
        }
    }

    /// The value of a future, where it has given one.
    pub(crate) fn given<T: Spelled + Drop>(
        &mut self,
        value: Option<io::Result<T>>,
    ) -> Result<(), Fault> {
        match value {
            Some(value) => self.value(value),
            None => Ok(()),
        }
    }

    /// The bytes of one read into `room`.
    pub(crate) fn read(&mut self, read: io::Result<usize>, room: &[u8]) -> Result<(), Fault> {
        match read {
            Ok(n) => self.bytes(&room[..n.min(room.len())]),
            Err(e) => self.kind(e.kind()),
        }
    }

    /// The bytes of one read into two rooms, with a plus between those of each.
    pub(crate) fn read_both(
        &mut self,
        read: io::Result<usize>,
        first: &[u8],
        second: &[u8],
    ) -> Result<(), Fault> {
        match read {
            Ok(n) => {
                let cut = n.min(first.len());
                self.part("x")?;
                self.digits(&first[..cut])?;
                self.part("+")?;
                self.digits(&second[..(n - cut).min(second.len())])?;
                self.part(",")
            }
            Err(e) => self.kind(e.kind()),
        }
    }
}

const DIGITS: [&str; 16] = [
    "0", "1", "2", "3", "4", "5", "6", "7", "8", "9", "a", "b", "c", "d", "e", "f",
];

/// A value that has a spelling.
pub(crate) trait Spelled {
    fn spell(&self, run: &mut Run<'_, '_>) -> Result<(), Fault>;
}

impl Spelled for () {
    fn spell(&self, run: &mut Run<'_, '_>) -> Result<(), Fault> {
        run.word("ok")
    }
}

impl Spelled for usize {
    fn spell(&self, run: &mut Run<'_, '_>) -> Result<(), Fault> {
        run.number(*self as u64)
    }
}

impl Spelled for u64 {
    fn spell(&self, run: &mut Run<'_, '_>) -> Result<(), Fault> {
        run.number(*self)
    }
}

impl Spelled for u8 {
    fn spell(&self, run: &mut Run<'_, '_>) -> Result<(), Fault> {
        run.bytes(&[*self])
    }
}

impl Spelled for Vec<u8> {
    fn spell(&self, run: &mut Run<'_, '_>) -> Result<(), Fault> {
        run.bytes(self.as_slice())
    }
}

impl Spelled for String {
    fn spell(&self, run: &mut Run<'_, '_>) -> Result<(), Fault> {
        run.bytes(self.as_bytes())
    }
}
