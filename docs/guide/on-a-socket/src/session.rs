//! What is answered to the requests of a connection.
ghost use Rattle.std.specs.Prelude.{◌≡◌, ◌≢◌, ◌≤◌, IfSome, IsFalse, codes, false, length, take};

use crate::store::Store;
use bytes::BytesMut;
use framed::{Answer, FrameError, Service};
use std::alloc::{AllocError, Global};
use std::io::ErrorKind;
use std::str;
use std::sync::{Arc, Mutex, Wait};

/// A connection's share of the store.
#[derive(Drop)]
pub struct Session<R> {
    rt: R,
    store: Arc<Mutex<Store>>,
}

impl<R: Wait> Session<R> {
    /// Returns a session over a store. It waits for the store's lock by `rt`.
    pub fn new(rt: R, store: Arc<Mutex<Store>>) -> Session<R> {
        Session { rt, store }
    }

    /// Returns the reply to a request. The lock is held while the store is used, and not while the reply is sent.
    fn perform(&self, alloc: Global, line: &str) -> Result<String, AllocError> {
        match line.split_once(' ') {
            Some(("GET", key)) => match self.store.lock(&self.rt).get(key)? {
                Some(text) => Ok(text),
                None => String::from_str(alloc, "NONE"),
            },
            Some(("SET", rest)) => self.set(alloc, rest),
            Some(("DELETE", key)) => {
                let gone = self.store.lock(&self.rt).delete(key);
                String::from_str(alloc, if gone { "OK" } else { "NONE" })
            }
            None if line == "COUNT" => {
                let count = self.store.lock(&self.rt).len();
                format!(in alloc; "{count}")
            }
            None if line == "QUIT" => String::from_str(alloc, "OK"),
            _ => String::from_str(alloc, "ERROR unknown request"),
        }
    }

    /// Holds the text behind a key and a space.
    fn set(&self, alloc: Global, rest: &str) -> Result<String, AllocError> {
        let Some((key, text)) = rest.split_once(' ') else {
            return String::from_str(alloc, "ERROR a key and a text are missing");
        };
        // A change that was made has to be replied to, so there is room for the reply first.
        let reply = String::from_str(alloc, "OK")?;
        self.store.lock(&self.rt).set(key, text)?;
        Ok(reply)
    }
}

/// Returns whether a line is one of a web page's request, such as its visitor's browser sends.
fn is_of_web(line: &[u8]) -> bool
    ensures { IsFalse result → (take 5 line.now ≢ codes "POST ") × (take 5 line.now ≢ codes "Host:") }
{
    line.strip_prefix(b"POST ").is_some() || line.strip_prefix(b"Host:").is_some()
}

impl<R: Wait> Service for Session<R> {
    type Request = BytesMut;

    type Reply = String;

    type Error = FrameError;

    // Each request has one reply. A line of a web page's request ends the session.
    ghost answers = { λ _ line out _. IfSome out (λ a. (length a.0 ≡ 1)
        × (take 5 line.items ≡ codes "POST " → a.1 ≡ false) × (take 5 line.items ≡ codes "Host:" → a.1 ≡ false)) };

    // An error has at most one line.
    ghost refuses = { λ _ e words _. IfSome words (λ w. length w ≤ 1) };

    fn answer(&mut self, alloc: Global, line: BytesMut) -> Result<Answer<String>, AllocError> {
        let mut replies = Vec::with_capacity(alloc, 1)?;
        let (reply, goes_on) = match str::from_utf8(line.as_slice()) {
            _ if is_of_web(line.as_slice()) => {
                (
                    String::from_str(alloc, "ERROR this is no web server")?,
                    false,
                )
            }
            // (a reply that ends in a return would not be encoded)
            Ok(text) if !text.ends_with('\r') => (self.perform(alloc, text)?, text != "QUIT"),
            _ => (String::from_str(alloc, "ERROR the line is no text")?, true),
        };
        replies.push_reserved(reply);
        Ok(Answer { replies, goes_on })
    }

    fn refuse(&mut self, alloc: Global, error: &FrameError) -> Result<Vec<String>, AllocError> {
        let word = match error {
            FrameError::TooLong(_) => "ERROR the line is too long",
            FrameError::CutOff => "ERROR the last line has no newline",
            FrameError::Io(e) if e.kind() == ErrorKind::WouldBlock => {
                "ERROR no request came in time"
            }
            _ => return Ok(Vec::new(alloc)),
        };
        let mut words = Vec::with_capacity(alloc, 1)?;
        words.push_reserved(String::from_str(alloc, word)?);
        Ok(words)
    }
}
