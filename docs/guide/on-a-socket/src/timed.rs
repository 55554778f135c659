//! A socket whose reads and writes end at a time.
use std::io;
use std::io::{ErrorKind, Read, Write};
use std::net::TcpStream;
use std::time::{Clock, Duration, Instant};

/// How many seconds a read or a write may wait for the client.
const PATIENCE: u64 = 3;

/// Reads and writes until `end`. After it, each call returns the error `WouldBlock`.
#[derive(Drop)]
pub struct Timed<'a, R> {
    rt: &'a R,
    stream: &'a TcpStream,
    end: Instant,
}

impl<'a, R: Clock> Timed<'a, R> {
    /// Returns a reader and writer that ends in so many seconds.
    pub fn new(rt: &'a R, stream: &'a TcpStream, seconds: u64) -> io::Result<Timed<'a, R>> {
        match Instant::now(rt)?.checked_add(Duration::from_secs(seconds)) {
            Some(end) => Ok(Timed { rt, stream, end }),
            None => Err(ErrorKind::InvalidInput.into()),
        }
    }

    /// Returns how long a call may wait now.
    fn patience(&self) -> io::Result<Option<Duration>> {
        let left = self.end.saturating_duration_since(Instant::now(self.rt)?);
        if left.is_zero() {
            return Err(ErrorKind::WouldBlock.into());
        }
        Ok(Some(left.min(Duration::from_secs(PATIENCE))))
    }
}

impl<R: Clock> Read for Timed<'_, R> {
    fn read(&mut self, buf: &mut [u8]) -> io::Result<usize> {
        self.stream.set_read_timeout(self.patience()?)?;
        let mut stream = self.stream;
        stream.read(buf)
    }
}

impl<R: Clock> Write for Timed<'_, R> {
    fn write(&mut self, buf: &[u8]) -> io::Result<usize> {
        self.stream.set_write_timeout(self.patience()?)?;
        let mut stream = self.stream;
        stream.write(buf)
    }

    fn flush(&mut self) -> io::Result<()> {
        Ok(())
    }
}
