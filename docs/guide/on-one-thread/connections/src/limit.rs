//! How long a connection may take.
ghost use Rattle.futures.specs.Poll.{OnPending};
ghost use Rattle.futures.specs.Task.{IsArmed};
ghost use Rattle.futures_lite.specs.Contexts.{Keeps};

use futures::Future;
use futures_lite::{Context, Poll};
use std::io;
use std::io::ErrorKind;
use std::time::{Clock, Duration, Instant};
use tokio::sync::OwnedNotified;
use tokio::time::{Handle, Sleep};

/// Why a connection is to end.
pub enum Reason {
    /// Its time is over.
    Late,
    /// The server stops.
    Stopped,
}

/// A time that can be moved, and the word that the server stops.
#[derive(Drop)]
pub struct Limit<'a, R> {
    rt: &'a R,
    sleep: Sleep,
    stopped: OwnedNotified,
    is_stopped: bool,
}

impl<'a, R: Clock> Limit<'a, R> {
    /// Returns a limit of so many seconds from now.
    pub fn new(
        rt: &'a R,
        time: &Handle,
        seconds: u64,
        stopped: OwnedNotified,
    ) -> io::Result<Limit<'a, R>> {
        Ok(Limit {
            rt,
            sleep: time.sleep(rt, Duration::from_secs(seconds))?,
            stopped,
            is_stopped: false,
        })
    }

    /// Moves the time to so many seconds from now. Fails if the clock does; then the time stays.
    pub fn allow(&mut self, seconds: u64) -> io::Result<()> {
        match Instant::now(self.rt)?.checked_add(Duration::from_secs(seconds)) {
            Some(end) => {
                self.sleep.reset(end);
                Ok(())
            }
            None => Err(ErrorKind::InvalidInput.into()),
        }
    }

    /// Returns why the connection is to end, once it is. That the server stops is told once.
    pub fn poll_reason(&mut self, cx: &mut Context<'_>) -> Poll<Reason>
        ensures armed { OnPending result (IsArmed cx.new) }
        ensures context { Keeps cx.old cx.new }
    {
        if !self.is_stopped && self.stopped.poll(cx).is_ready() {
            self.is_stopped = true;
            return Poll::Ready(Reason::Stopped);
        }
        match self.sleep.poll(cx) {
            Poll::Ready(_fired) => Poll::Ready(Reason::Late),
            Poll::Pending => Poll::Pending,
        }
    }
}
