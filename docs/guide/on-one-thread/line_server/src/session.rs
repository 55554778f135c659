//! What is answered to the requests of a connection.
ghost use Rattle.std.specs.Prelude.{◌≡◌, ◌≢◌, ◌++◌, ◌∷◌, [], IsFalse, OnOk, codes, take};
ghost use Rattle.line_server.specs.Connection.{AddsLine};

use crate::store::Store;
use framed::FrameError;
use std::alloc::{AllocError, Global};
use std::cell::RefCell;
use std::io::ErrorKind;
use std::rc::Rc;
use std::str;

/// A connection's share of the store.
#[derive(Drop)]
pub struct Session {
    alloc: Global,
    store: Rc<RefCell<Store>>,
}

/// What is to be done behind a reply.
#[derive(Clone, Copy, PartialEq, Eq)]
pub enum Then {
    /// The next request is read.
    GoOn,
    /// The connection ends.
    Quit,
    /// The server ends.
    Stop,
}

impl Session {
    /// Returns a session over a store.
    pub fn new(alloc: Global, store: Rc<RefCell<Store>>) -> Session {
        Session { alloc, store }
    }

    /// Performs a request, and puts its reply, a line, behind what `out` has.
    pub fn answer(&self, request: &[u8], out: &mut Vec<u8>) -> Result<Then, AllocError>
        ensures { OnOk result (AddsLine out.old.items out.new.items) }
    {
        let (reply, then) = match str::from_utf8(request) {
            _ if is_of_web(request) => (self.text("ERROR this is no web server")?, Then::Quit),
            // (a reply that ends in a return would not be a line)
            Ok(text) if !text.ends_with('\r') => (self.perform(text)?, after(text)),
            _ => (self.text("ERROR the line is no text")?, Then::GoOn),
        };
        put_line(out, reply.as_bytes())?;
        Ok(then)
    }

    /// Returns the reply to a request. The store is borrowed while it is used, and never across a poll.
    fn perform(&self, line: &str) -> Result<String, AllocError> {
        let Ok(mut store) = self.store.try_borrow_mut() else {
            return self.text("ERROR the store is in use");
        };
        match line.split_once(' ') {
            Some(("GET", key)) => match store.get(key)? {
                Some(text) => Ok(text),
                None => self.text("NONE"),
            },
            Some(("SET", rest)) => self.set(&mut store, rest),
            Some(("DELETE", key)) => self.text(if store.delete(key) { "OK" } else { "NONE" }),
            None if line == "COUNT" => {
                let count = store.len();
                format!(in self.alloc; "{count}")
            }
            None if line == "QUIT" || line == "STOP" => self.text("OK"),
            _ => self.text("ERROR unknown request"),
        }
    }

    /// Holds the text behind a key and a space.
    fn set(&self, store: &mut Store, rest: &str) -> Result<String, AllocError> {
        let Some((key, text)) = rest.split_once(' ') else {
            return self.text("ERROR a key and a text are missing");
        };
        // A change that was made has to be replied to, so there is room for the reply first.
        let reply = self.text("OK")?;
        store.set(key, text)?;
        Ok(reply)
    }

    fn text(&self, text: &str) -> Result<String, AllocError> {
        String::from_str(self.alloc, text)
    }
}

/// Returns whether a line is one of a web page's request, such as its visitor's browser sends.
fn is_of_web(line: &[u8]) -> bool
    ensures { IsFalse result → (take 5 line.now ≢ codes "POST ") × (take 5 line.now ≢ codes "Host:") }
{
    line.strip_prefix(b"POST ").is_some() || line.strip_prefix(b"Host:").is_some()
}

fn after(text: &str) -> Then {
    match text {
        "QUIT" => Then::Quit,
        "STOP" => Then::Stop,
        _ => Then::GoOn,
    }
}

/// Puts a text and a newline behind what `out` has.
pub fn put_line(out: &mut Vec<u8>, text: &[u8]) -> Result<(), AllocError>
    ensures { OnOk result (out.new.items ≡ out.old.items ++ text.now ++ 10 ∷ []) }
{
    out.extend_from_slice(text)?;
    out.push(b'\n').map_err(|_| AllocError)
}

/// Returns the last words for a client whose bytes are no request.
pub fn last_words(error: &FrameError) -> &'static str {
    match error {
        FrameError::TooLong(_) => "ERROR the line is too long",
        FrameError::CutOff => "ERROR the last line has no newline",
        _ => "",
    }
}
