//! A request that is a line.
ghost use Rattle.std.specs.Prelude.{◌≡◌, ◌≢◌, ◌≤◌, ◌<◌, All, length, slice_index, take};
ghost use Rattle.redis_session.specs.RequestFrames.{FindsRequest};

use crate::refusal::Refusal;
use example_redis::limits::Limits;
use memchr::memchr;

/// Finds the line at the front of some bytes, and returns how many bytes it has with its line feed. `None` says that it
/// is not whole.
pub fn find_line(bytes: &[u8], limits: Limits) -> Result<Option<usize>, Refusal>
    requires { slice_index bytes.now 0 ≢ 42 }
    ensures { FindsRequest limits bytes.now result }
{
    let amount = text_length(bytes);
    if amount > limits.line as usize {
        return Err(Refusal::LongLine);
    }
    if amount == bytes.len() {
        return Ok(None);
    }
    Ok(Some(amount + 1))
}

/// Returns how many bytes are before the first line feed, or all.
fn text_length(bytes: &[u8]) -> usize
    ensures within { result ≤ length bytes.now }
    ensures one_line { All (λ b. b ≢ 10) (take result bytes.now) }
    ensures feed { result < length bytes.now → slice_index bytes.now result ≡ 10 }
{
    match memchr(b'\n', bytes) {
        Some(place) => place,
        None => bytes.len(),
    }
}
