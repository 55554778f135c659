//! What is replied to a client.
ghost use Rattle.std.specs.Prelude.{◌≡◌, IfOk, IsTrue, ◌↔◌};
ghost use Rattle.example_redis.specs.Commands.{texts};
ghost use Rattle.example_redis.specs.Store.{held};
ghost use Rattle.framed.specs.Services.{RefusesBy};
ghost use Rattle.serving.specs.Responding.{Pushes};
ghost use Rattle.redis_session.specs.Commands.{AnswersShared, AnswersWords, PerformsAs, asks_to_stop, words_to};

use crate::pushing::{push_line, push_outcome};
use crate::refusal::Refusal;
use crate::words::request_in;
use example_redis::limits::Limits;
use example_redis::store::Store;
use example_redis::verb::lowercase;
use framed::FramesError;
use serving::Responder;
use std::alloc::{AllocError, Global};
use std::cell::{Cell, RefCell};
use std::rc::Rc;

/// How many bytes there is room for before a request is performed. The reply to a change has fewer.
const SHORT: usize = 64;

/// What a client has asked for, to be looked at between its polls.
#[derive(Drop)]
pub struct Told {
    /// Whether a request came since someone looked.
    pub has_asked: Cell<bool>,
    /// Whether the server is to stop.
    pub wants_stop: Cell<bool>,
}

impl Told {
    /// Returns that nothing was asked.
    pub fn nothing() -> Told {
        Told {
            has_asked: Cell::new(false),
            wants_stop: Cell::new(false),
        }
    }
}

/// A client, with its share of the store.
#[derive(Drop)]
pub struct Client {
    pub alloc: Global,
    pub limits: Limits,
    pub store: Rc<RefCell<Store>>,
    pub told: Rc<Told>,
    /// Whether a transaction of this client is refused, up to its end.
    pub refuses: bool,
}

impl Client {
    /// Pushes the reply to the words of a request.
    fn answer_words(&mut self, words: &[Vec<u8>], out: &mut Vec<u8>) -> Result<bool, AllocError>
        ensures { Pushes (AnswersWords self.old (texts words.now)) out.old.items result out.new.items self.new }
    {
        if is_stop(self.alloc, words)? {
            self.told.wants_stop.set(true);
            return Ok(false);
        }
        let Ok(mut store) = self.store.try_borrow_mut() else {
            return Err(AllocError);
        };
        perform(&mut store, &mut self.refuses, words, out)
    }

    /// Returns a client that has not asked yet.
    pub fn new(alloc: Global, limits: Limits, store: Rc<RefCell<Store>>, told: Rc<Told>) -> Client {
        Client {
            alloc,
            limits,
            store,
            told,
            refuses: false,
        }
    }
}

impl Responder for Client {
    type Error = Refusal;

    ghost answers = { AnswersShared };

    ghost refuses = { RefusesBy (λ s. s) words_to };

    /// Pushes the reply to a request. The store is borrowed meanwhile, and never across a poll.
    fn answer(&mut self, request: &[u8], out: &mut Vec<u8>) -> Result<bool, AllocError> {
        self.told.has_asked.set(true);
        let Some(request) = request_in(self.alloc, self.limits, request)? else {
            return Err(AllocError);
        };
        self.answer_words(&request.words, out)
    }

    fn refuse(
        &mut self,
        error: &FramesError<Refusal>,
        out: &mut Vec<u8>,
    ) -> Result<(), AllocError> {
        match error {
            FramesError::NoFrame(Refusal::CutOff) => Ok(()),
            FramesError::NoFrame(refusal) => push_line(b"-", refusal.text(), out),
            _ => Ok(()),
        }
    }
}

/// Returns whether these words are `SHUTDOWN`, which stops the server.
fn is_stop(alloc: Global, words: &[Vec<u8>]) -> Result<bool, AllocError>
    ensures { IfOk result (λ b. b ≡ asks_to_stop (texts words.now)) }
{
    if words.len() != 1 {
        return Ok(false);
    }
    let name = lowercase(alloc, &words[0])?;
    Ok(name.as_slice() == b"shutdown".as_slice())
}

/// Performs a request of a client, and pushes its reply. `refuses` says whether a transaction of that client is refused.
fn perform(
    store: &mut Store,
    refuses: &mut bool,
    words: &[Vec<u8>],
    out: &mut Vec<u8>,
) -> Result<bool, AllocError>
    ensures { Pushes (PerformsAs (held store.old) refuses.old refuses.new (texts words.now)) out.old.items result out.new.items (held store.new) }
{
    // A change that was made has to be replied to, so there is room for the reply first.
    out.reserve(SHORT)?;
    store.set_refusing(*refuses);
    let outcome = store.perform(words)?;
    *refuses = store.refuses();
    push_outcome(&outcome.reply, out)?;
    Ok(outcome.goes_on)
}
