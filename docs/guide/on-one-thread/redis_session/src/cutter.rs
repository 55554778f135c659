//! The requests in the bytes of a client.
ghost use Rattle.std.specs.Prelude.{◌≡◌};
ghost use Rattle.redis_session.specs.RequestFrames.{ExplainedBy, FindsRequest, IsRequestFrame};
ghost use Rattle.redis_session.specs.Laws.FrameLaws.{no_frame_empty, one_frame};
ghost use Rattle.redis_session.specs.declared.refusal.Refusal.TheVariants.{CutOff};

use crate::array::{begins_array, find_array};
use crate::line::find_line;
use crate::refusal::Refusal;
use example_redis::limits::Limits;
use framed::{Cut, Cutter, Span};

/// Finds requests: arrays of bulk strings, and lines. The body of a frame is all of its bytes.
///
/// Each word of an array counts as its bytes and 16 more. Bytes are refused as soon as no request within the limits
/// begins with them.
#[derive(Debug, Clone, Copy)]
pub struct RequestCutter {
    /// How large a request may be.
    pub limits: Limits,
}

/// Finds the request at the front of some bytes, and returns how many bytes it has. `None` says that it is not whole.
fn find_request(bytes: &[u8], limits: Limits) -> Result<Option<usize>, Refusal>
    ensures { FindsRequest limits bytes.now result }
{
    if begins_array(bytes) {
        find_array(bytes, limits)
    } else {
        find_line(bytes, limits)
    }
}

impl Cutter for RequestCutter {
    type Error = Refusal;

    ghost piece = { IsRequestFrame };

    ghost refuses = { ExplainedBy };

    ghost cut_off = { λ _ _ e. e ≡ CutOff };

    fn cut(&self, bytes: &[u8], seen: usize) -> Cut<Refusal> {
        match find_request(bytes, self.limits) {
            Ok(Some(size)) => Cut::Whole(Span {
                from: 0,
                to: size,
                size,
            }),
            Ok(None) => Cut::More(bytes.len() + 1),
            Err(refusal) => Cut::Refused(refusal),
        }
    }

    fn at_end(&self, bytes: &[u8]) -> Refusal {
        Refusal::CutOff
    }

    ghost one = { one_frame };

    ghost some = { no_frame_empty };
}
