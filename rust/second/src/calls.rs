//! How a list of calls is read (paper 01, "The plain reading", second part; "How a sitting goes"
//! for the times of the handed-out parts; the table for refusals 1 and 2; request #102 for the count
//! of a field's lines, request #105 for the URI asked for): feeds, answers and ends, with the lengths
//! of the holds that each is lent. Nothing is kept but the bytes taken, the answers given, whether the
//! end was told, and the ring and URI that judged the head; each call does the plain reading anew.
//! That is slow for long streams in tiny pieces and plain to follow.

use crate::event::{Event, Question, Refusal};
use crate::head::{self, Signed};
use crate::plain::{self, Kind, Placed, Reading};
use crate::ring::{Record, MOST_RECORDS};
use std::ops::Range;

/// The lengths of the three holds that a call is lent.
#[derive(Debug, Clone, Copy, PartialEq, Eq)]
pub struct Holds {
    pub head: usize,
    pub block: usize,
    pub question: usize,
}

impl Holds {
    /// The shortest holds that are long enough. A head hold has room for any head, and so has a question hold, for what is asked
    /// about a head is never longer (request #108: "head and question holds").
    pub const ENOUGH: Holds = Holds { head: head::LIMIT, block: 65_536, question: head::LIMIT };

    fn are_enough(&self) -> bool {
        self.head >= Self::ENOUGH.head && self.block >= Self::ENOUGH.block && self.question >= Self::ENOUGH.question
    }
}

/// A call's word with all it carries.
#[derive(Debug, Clone, PartialEq, Eq)]
pub enum Word {
    /// A feed brought no event.
    More,
    /// The message is what lies in the question hold; its length is the message's.
    Question(Question),
    HeadAccepted {
        status: u16,
    },
    Block {
        offset: u64,
        length: u32,
    },
    Closed {
        total: u64,
    },
    Complete {
        total: u64,
    },
    /// 1 and 2 are no events, the others are final.
    Refused(Refusal),
}

impl From<Event> for Word {
    fn from(event: Event) -> Self {
        match event {
            Event::Question(question) => Word::Question(question),
            Event::HeadAccepted { status } => Word::HeadAccepted { status },
            Event::Block { offset, length } => Word::Block { offset, length },
            Event::Closed { total } => Word::Closed { total },
            Event::Complete { total } => Word::Complete { total },
            Event::Refused(refusal) => Word::Refused(refusal),
        }
    }
}

/// A call's word and how many bytes of the piece it took (0 for an answer and an end).
#[derive(Debug, Clone, PartialEq, Eq)]
pub struct Outcome {
    pub word: Word,
    pub taken: usize,
}

impl Outcome {
    fn refused(number: u8) -> Self {
        Outcome { word: Word::Refused(Refusal::plain(number)), taken: 0 }
    }
}

/// The bytes of the three holds.
#[derive(Debug, Clone, PartialEq, Eq)]
pub struct Contents {
    pub head: Vec<u8>,
    pub block: Vec<u8>,
    pub question: Vec<u8>,
}

/// Writes bytes at the front of a hold.
fn overlay(hold: &mut [u8], bytes: &[u8]) {
    hold[..bytes.len()].copy_from_slice(bytes);
}

/// How many bytes of an unreleased block or of the trailer were gathered at the front of the block
/// hold: what a final refusal sets to zero (paper 01, below the table of refusals).
fn pending(reading: &Reading) -> usize {
    let gathered = reading.sections.iter().rev().find(|(kind, _)| matches!(kind, Kind::Data | Kind::Trailer));
    let Some((kind, range)) = gathered else { return 0 };
    let released = reading.events.iter().any(|placed| placed.block.as_ref() == Some(range));
    match kind {
        Kind::Data if released => 0,
        _ => range.len(),
    }
}

/// The list of calls so far.
#[derive(Debug, Clone, Default)]
pub struct Calls {
    bytes: Vec<u8>,
    answers: Vec<bool>,
    told: bool,
    /// The ring and the URI lent to the feed that brought the first event: the head is judged only there.
    judges: Option<(Vec<Record>, Vec<u8>)>,
    /// Whether the last call that was not refused by 1 or 2 was a yes that released a block, and
    /// where the block lies in the bytes taken.
    block: Option<Range<usize>>,
}

impl Calls {
    pub fn new() -> Self {
        Self::default()
    }

    /// All the bytes taken so far. Their number is the place of the last event.
    pub fn bytes(&self) -> &[u8] {
        &self.bytes
    }

    /// A feed of a piece. The URI asked for may have any length.
    pub fn feed(&mut self, holds: Holds, ring: &[Record], asked: &[u8], piece: &[u8]) -> Outcome {
        if !holds.are_enough() || ring.len() > MOST_RECORDS {
            return Outcome::refused(2);
        }
        let before = self.reading();
        if before.is_open() || before.is_final() {
            return Outcome::refused(1);
        }
        self.block = None;
        let judges = self.judges.clone().unwrap_or_else(|| (ring.to_vec(), asked.to_vec()));
        let mut longer = self.bytes.clone();
        longer.extend_from_slice(piece);
        let after = plain::read(&longer, &judges.0, &judges.1, &self.answers, self.told);
        let Some(gained) = after.events.get(before.events.len()) else {
            self.bytes = longer;
            return Outcome { word: Word::More, taken: piece.len() };
        };
        // The shortest beginning that gains the event ends at the event's place.
        let taken = gained.place - self.bytes.len();
        longer.truncate(gained.place);
        self.bytes = longer;
        self.judges = Some(judges);
        Outcome { word: gained.event.clone().into(), taken }
    }

    /// An answer to the open question.
    pub fn answer(&mut self, holds: Holds, yes: bool) -> Outcome {
        if !holds.are_enough() {
            return Outcome::refused(2);
        }
        let before = self.reading();
        if !before.is_open() {
            return Outcome::refused(1);
        }
        self.answers.push(yes);
        let gained = self.gained(&before);
        self.block = gained.1;
        Outcome { word: gained.0, taken: 0 }
    }

    /// No bytes will follow.
    pub fn end(&mut self, holds: Holds) -> Outcome {
        if !holds.are_enough() {
            return Outcome::refused(2);
        }
        let before = self.reading();
        if before.is_open() || before.is_final() {
            return Outcome::refused(1);
        }
        self.block = None;
        self.told = true;
        Outcome { word: self.gained(&before).0, taken: 0 }
    }

    /// The released block, if the last calls left one out. With too short a hold it is empty.
    pub fn block(&self, block_hold: usize) -> &[u8] {
        match &self.block {
            Some(range) if block_hold >= Holds::ENOUGH.block => &self.bytes[range.clone()],
            _ => &[],
        }
    }

    /// The value of a signed field, of its first line if it has several. Empty for any other name,
    /// before the head is accepted and with too short a hold.
    pub fn value(&self, head_hold: usize, name: &[u8]) -> &[u8] {
        self.signed(head_hold, name).map_or(&[], |field| &self.bytes[field.value])
    }

    /// How many lines a signed field has. 0 for any other name, before the head is accepted and with
    /// too short a hold.
    pub fn value_count(&self, head_hold: usize, name: &[u8]) -> usize {
        self.signed(head_hold, name).map_or(0, |field| field.count)
    }

    /// The signed field of that name, at the times and with the holds at which it is handed out.
    fn signed(&self, head_hold: usize, name: &[u8]) -> Option<Signed> {
        if head_hold < Holds::ENOUGH.head {
            return None;
        }
        self.reading().accepted?.signed(name).cloned()
    }

    /// What lies in the three holds now, if the same holds were lent to all calls but those refused
    /// with 2, and this lay in them at first.
    pub fn contents(&self, first: &Contents) -> Contents {
        let reading = self.reading();
        let mut now = first.clone();
        for (kind, range) in &reading.sections {
            let bytes = &self.bytes[range.clone()];
            match kind {
                Kind::Head => overlay(&mut now.head, bytes),
                Kind::Data | Kind::Trailer => overlay(&mut now.block, bytes),
                Kind::Line | Kind::DataEnd => (),
            }
        }
        for placed in &reading.events {
            if let Event::Question(question) = &placed.event {
                overlay(&mut now.question, &question.message);
            }
        }
        if matches!(reading.events.last(), Some(Placed { event: Event::Refused(_), .. })) {
            now.block[..pending(&reading)].fill(0);
        }
        now
    }

    /// The plain reading of all that was taken, answered and told.
    pub fn reading(&self) -> Reading {
        let (ring, asked) = self.judges.as_ref().map_or((&[][..], &[][..]), |(ring, asked)| (&ring[..], &asked[..]));
        plain::read(&self.bytes, ring, asked, &self.answers, self.told)
    }

    /// The word for the event that the reading has gained, and the block that it released.
    fn gained(&self, before: &Reading) -> (Word, Option<Range<usize>>) {
        match self.reading().events.get(before.events.len()) {
            Some(gained) => (gained.event.clone().into(), gained.block.clone()),
            None => (Word::More, None),
        }
    }
}
