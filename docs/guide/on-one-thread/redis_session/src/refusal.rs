//! Why bytes are no request.
ghost use Rattle.example_redis.specs.Service.{Complains, last_said};
ghost use Rattle.redis_session.specs.RequestFrames.{as_error};

use thiserror::Error;

/// Why bytes are no request, or none within the limits.
#[derive(Debug, Clone, Copy, PartialEq, Eq, Error)]
pub enum Refusal {
    /// No request begins with these bytes.
    #[error("the request is malformed")]
    Malformed,
    /// An array has more words than the limits allow.
    #[error("the request has too many words")]
    TooManyWords,
    /// A word has more bytes than the limit allows.
    #[error("the word is too long")]
    LongWord,
    /// The words of a request have more bytes than the limit allows.
    #[error("the request is too long")]
    LongRequest,
    /// A line has more bytes than the limit allows.
    #[error("the line is too long")]
    LongLine,
    /// The input ended within a request.
    #[error("the input ended within a request")]
    CutOff,
}

impl Refusal {
    /// Returns what is said of it to the client: the text of an error. To the end of the input nothing is said.
    pub fn text(self) -> &'static [u8]
        ensures { Complains (last_said (as_error self)) result.now }
    {
        match self {
            Refusal::Malformed => b"ERR Protocol error: malformed request",
            Refusal::TooManyWords => b"ERR Protocol error: too many words",
            Refusal::LongWord => b"ERR Protocol error: a word is too long",
            Refusal::LongRequest => b"ERR Protocol error: the request is too long",
            Refusal::LongLine => b"ERR Protocol error: the line is too long",
            Refusal::CutOff => b"",
        }
    }
}
