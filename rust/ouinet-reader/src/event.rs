//! What the reader tells its caller.

use crate::Refusal;

/// A question to the caller's Ed25519 routine.
#[derive(Debug, Clone, Copy, PartialEq, Eq)]
pub struct Question<'r> {
    /// The public key, from the ring's record.
    pub key: &'r [u8; 32],
    /// The number of that record in the ring, counted from 0.
    pub record: usize,
    /// The bytes that were signed.
    pub message: &'r [u8],
    /// The signature that the stream carries.
    pub signature: &'r [u8; 64],
}

/// What happened in the stream. The bytes in it are parts of the reader's buffers.
#[derive(Debug, Clone, Copy, PartialEq, Eq)]
pub enum Event<'r> {
    /// The reader waits for an [`answer`](crate::Reader::answer).
    Question(Question<'r>),
    /// The head's signature was good. From now on [`Reader::value`](crate::Reader::value) gives the signed fields, and
    /// [`Reader::value_count`](crate::Reader::value_count) how often each is there. With status 206 the blocks are a part of the show:
    /// [`Reader::range`](crate::Reader::range) says which.
    HeadAccepted {
        /// The response's status: 200, 301, 302 or 307, or 206 for a part answer.
        status: u16,
    },
    /// A block's signature was good.
    Block {
        /// Where in the body the block starts; in a part answer, where in the body of the whole show.
        offset: u64,
        /// The block.
        bytes: &'r [u8],
    },
    /// The stream's framing ended well, and it has no end fields or is a part answer: nothing says that the body is complete. This is the
    /// last event.
    Closed {
        /// How many bytes were handed out: the length of the body, or of the part.
        total: u64,
    },
    /// The body is complete: its length and its SHA-256 are those that the last good signature is over. This is the last event.
    Complete {
        /// The length of the body.
        total: u64,
    },
    /// The stream is not to be trusted further. This is the last event.
    Refused(Refusal),
}

impl Event<'_> {
    /// Whether this is a stream's last event.
    pub fn is_final(&self) -> bool {
        matches!(self, Event::Closed { .. } | Event::Complete { .. } | Event::Refused(_))
    }
}
