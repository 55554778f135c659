//! Requests of one client, each with its reply, and readers and writers over them that come in pieces and wait.
use lite_mock::{Marks, Order, Takes};
use std::alloc::Global;
use std::test::Fail;

/// The first bytes of some requests.
#[derive(Drop)]
pub struct Front {
    pub sent: Vec<u8>,
    /// The replies to the whole requests among them.
    pub replies: Vec<u8>,
    /// Whether they end behind a request.
    pub is_whole: bool,
}

impl Front {
    /// Returns the first `count` bytes of all requests.
    pub fn of(alloc: Global, exchanges: &[(&str, &str)], count: usize) -> Result<Front, Fail> {
        let mut front = Front {
            sent: Vec::new(alloc),
            replies: Vec::new(alloc),
            is_whole: true,
        };
        let mut left = count;
        for (request, reply) in exchanges {
            let size = request.len().min(left);
            front.sent.extend_from_slice(&request.as_bytes()[..size])?;
            left -= size;
            if size < request.len() {
                front.is_whole = size == 0;
                break;
            }
            front.replies.extend_from_slice(reply.as_bytes())?;
        }
        Ok(front)
    }

    /// Returns a reader of these bytes that is pending once, at this place.
    pub fn cut_at(&self, alloc: Global, place: usize) -> Result<Marks, Fail> {
        let mut told = Marks::new(alloc);
        told.chunk(&self.sent[..place])?;
        told.pending()?;
        told.chunk(&self.sent[place..])?;
        Ok(told)
    }

    /// Returns a reader of these bytes, and a writer for the replies, that are pending before each byte.
    pub fn by_bytes(&self, alloc: Global) -> Result<(Marks, Takes), Fail> {
        let mut told = Marks::new(alloc);
        for byte in &self.sent {
            told.pending()?;
            told.chunk(&[*byte])?;
        }
        let mut taken = Takes::new(alloc);
        for _ in &self.replies {
            taken.order(Order::Wait)?;
            taken.order(Order::AtMost(1))?;
        }
        Ok((told, taken))
    }
}
