//! The words of a request.
ghost use Rattle.std.specs.Prelude.{◌≡◌, IfOk, IfSome};
ghost use Rattle.example_redis.specs.Bytes.{HasWrittenForm, Message, message_bytes, message_words};
ghost use Rattle.example_redis.specs.Commands.{texts};

use bytes::BytesMut;
use example_redis::limits::Limits;
use example_redis::requests::{Request, Requests};
use std::alloc::{AllocError, Global};
use tokio_util::codec::Decoder;

/// Returns the request in the bytes of a frame. `None` says that they are not whole, which no frame is.
///
/// # Errors
///
/// Memory was refused, or the bytes are no request.
pub fn request_in(
    alloc: Global,
    limits: Limits,
    frame: &[u8],
) -> Result<Option<Request>, AllocError>
    ensures { IfOk result (λ r. IfSome r (λ v. (m : Message) → HasWrittenForm m → frame.now ≡ message_bytes m → texts v.words.items ≡ message_words m)) }
{
    let mut bytes = BytesMut::copy_from_slice(alloc, frame)?;
    match Requests::new(alloc, limits).decode(&mut bytes) {
        Ok(request) => Ok(request),
        Err(_) => Err(AllocError),
    }
}
