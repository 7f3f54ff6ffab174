//! What a reading lists, and how the program writes it, places included.

use std::fmt;

/// What a question asks: does this signature over this message belong to the key of this record?
#[derive(Debug, Clone, PartialEq, Eq)]
pub struct Question {
    pub message: Vec<u8>,
    pub signature: [u8; 64],
    /// The number of the ring's record, from 0.
    pub record: usize,
}

/// *Closed* says that the framing ended well, *complete* that the whole show has come (request #101). A part answer is only ever closed
/// (request #104).
#[derive(Debug, Clone, PartialEq, Eq)]
pub enum Event {
    Question(Question),
    HeadAccepted { status: u16 },
    Block { offset: u64, length: u32 },
    Closed { total: u64 },
    Complete { total: u64 },
    Refused(Refusal),
}

/// Why a stream or a call is refused: the number and, with 3 and 6 alone, where the text went wrong, counted from the first
/// byte of the head, line, data end or trailer (request #106).
#[derive(Debug, Clone, Copy, PartialEq, Eq)]
pub struct Refusal {
    pub number: u8,
    pub at: Option<usize>,
}

impl Refusal {
    /// A refusal that has no place.
    pub fn plain(number: u8) -> Self {
        Refusal { number, at: None }
    }

    /// The head is refused at this place.
    pub fn head(at: usize) -> Self {
        Refusal { number: 3, at: Some(at) }
    }

    /// A line, a data end or the trailer is refused at this place.
    pub fn frame(at: usize) -> Self {
        Refusal { number: 6, at: Some(at) }
    }
}

/// The number, and the place where there is one.
impl fmt::Display for Refusal {
    fn fmt(&self, out: &mut fmt::Formatter) -> fmt::Result {
        match self.at {
            Some(at) => write!(out, "refused {} at {at}", self.number),
            None => write!(out, "refused {}", self.number),
        }
    }
}

impl Event {
    /// Nothing comes after a closing, whether the end was checked or not, or a refusal.
    pub fn is_final(&self) -> bool {
        matches!(self, Event::Closed { .. } | Event::Complete { .. } | Event::Refused(_))
    }
}

/// One line for each event.
impl fmt::Display for Event {
    fn fmt(&self, out: &mut fmt::Formatter) -> fmt::Result {
        match self {
            Event::Question(question) => write!(out, "question {}", question.message.len()),
            Event::HeadAccepted { status } => write!(out, "head {status}"),
            Event::Block { offset, length } => write!(out, "block {offset} {length}"),
            Event::Closed { total } => write!(out, "closed {total}"),
            Event::Complete { total } => write!(out, "complete {total}"),
            Event::Refused(refusal) => refusal.fmt(out),
        }
    }
}
