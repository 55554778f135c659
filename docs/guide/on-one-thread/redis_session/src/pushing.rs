//! The bytes of replies.
ghost use Rattle.std.specs.Prelude.{◌≡◌, ◌++◌, List, OnOk, Some, ℕ};
ghost use Rattle.example_redis.specs.Commands.{said};
ghost use Rattle.example_redis.specs.Replies.{line_bytes};
ghost use Rattle.redis_session.specs.Commands.{said_bytes};

use example_redis::reply::Reply;
use itoa::Buffer;
use std::alloc::AllocError;

/// Pushes the bytes of a reply, if there is one.
pub fn push_outcome(reply: &Option<Reply>, out: &mut Vec<u8>) -> Result<(), AllocError>
    ensures ok { OnOk result (out.new.items ≡ out.old.items ++ said_bytes (said reply.now)) }
    ensures behind { (rest : List ℕ) × (out.new.items ≡ out.old.items ++ rest) }
{
    match reply {
        Some(reply) => push_reply(reply, out),
        None => Ok(()),
    }
}

/// Pushes the bytes of a reply. Of an array only its first line, since no command replies items.
fn push_reply(reply: &Reply, out: &mut Vec<u8>) -> Result<(), AllocError>
    ensures ok { OnOk result (out.new.items ≡ out.old.items ++ said_bytes (said (Some reply.now))) }
    ensures behind { (rest : List ℕ) × (out.new.items ≡ out.old.items ++ rest) }
{
    match reply {
        Reply::Simple(text) => push_line(b"+", text.as_bytes(), out),
        Reply::Error(text) => push_line(b"-", text, out),
        Reply::Integer(number) => push_line(b":", Buffer::new().format(*number).as_bytes(), out),
        Reply::Bulk(bytes) => {
            push_line(b"$", Buffer::new().format(bytes.len()).as_bytes(), out)?;
            push_line(b"", bytes, out)
        }
        Reply::Null => push_line(b"$-1", b"", out),
        Reply::Array(items) => push_line(b"*", Buffer::new().format(items.len()).as_bytes(), out),
    }
}

/// Pushes a line, with its kind before it.
pub fn push_line(kind: &[u8], text: &[u8], out: &mut Vec<u8>) -> Result<(), AllocError>
    ensures ok { OnOk result (out.new.items ≡ out.old.items ++ line_bytes kind.now text.now) }
    ensures behind { (rest : List ℕ) × (out.new.items ≡ out.old.items ++ rest) }
{
    out.extend_from_slice(kind)?;
    out.extend_from_slice(text)?;
    out.extend_from_slice(b"\r\n")
}
