//! The plain reading of paper 01, in the section of that name: from all the stream's bytes, the
//! ring, the URI asked for (request #105: "one more fixed input"), the answers and whether the end
//! was told, to the list of events with their places. It holds the whole stream in memory and knows
//! nothing of pieces; `calls` is built on it.

use crate::chunk::{self, Before, Extension};
use crate::ends::{self, End};
use crate::event::{Event, Question, Refusal};
use crate::head::{self, Head};
use crate::message;
use crate::ring::Record;
use crate::sha256::sha256;
use crate::text;
use crate::trailer;
use std::ops::Range;

/// An event and the number of bytes up to and with the one that decided it.
#[derive(Debug, Clone, PartialEq, Eq)]
pub struct Placed {
    pub place: usize,
    pub event: Event,
    /// For a block: where its bytes lie in the stream.
    pub block: Option<Range<usize>>,
}

/// The kinds of section that a stream is made of.
#[derive(Debug, Clone, Copy, PartialEq, Eq)]
pub enum Kind {
    Head,
    Line,
    Data,
    DataEnd,
    Trailer,
}

/// What the plain reading finds.
#[derive(Debug, Clone)]
pub struct Reading {
    pub events: Vec<Placed>,
    /// The sections gone over, with their places. The last one may be unfinished.
    pub sections: Vec<(Kind, Range<usize>)>,
    /// The head, once a yes has accepted it.
    pub accepted: Option<Head>,
}

impl Reading {
    /// Whether the reading ends in a question that has no answer.
    pub fn is_open(&self) -> bool {
        matches!(self.events.last(), Some(Placed { event: Event::Question(_), .. }))
    }

    /// Whether the reading ends in a final event.
    pub fn is_final(&self) -> bool {
        self.events.last().is_some_and(|last| last.event.is_final())
    }
}

/// Reads the bytes.
pub fn read(bytes: &[u8], ring: &[Record], asked: &[u8], answers: &[bool], told: bool) -> Reading {
    let mut walk = Walk {
        bytes,
        place: 0,
        answers: answers.iter(),
        reading: Reading { events: Vec::new(), sections: Vec::new(), accepted: None },
    };
    match walk.stream(ring, asked) {
        Ok(last) => walk.list(last),
        Err(Stop::Refused(refusal)) => walk.list(Event::Refused(refusal)),
        // Where bytes ran out, all of them were gone over.
        Err(Stop::RanOut) if told => walk.list(Event::Refused(Refusal::plain(11))),
        Err(Stop::RanOut | Stop::Unanswered) => (),
    }
    walk.reading
}

/// Why a reading does not go on.
enum Stop {
    Refused(Refusal),
    Unanswered,
    RanOut,
}

/// A walk over the stream, section by section. `place` is the number of bytes gone over.
struct Walk<'a> {
    bytes: &'a [u8],
    place: usize,
    answers: std::slice::Iter<'a, bool>,
    reading: Reading,
}

impl<'a> Walk<'a> {
    fn list(&mut self, event: Event) {
        self.list_block(event, None);
    }

    fn list_block(&mut self, event: Event, block: Option<Range<usize>>) {
        self.reading.events.push(Placed { place: self.place, event, block });
    }

    /// Lists a question and takes its answer.
    fn ask(&mut self, question: Question) -> Result<(), Stop> {
        self.list(Event::Question(question));
        match self.answers.next() {
            Some(true) => Ok(()),
            Some(false) => Err(Stop::Refused(Refusal::plain(10))),
            None => Err(Stop::Unanswered),
        }
    }

    /// A section of so many bytes.
    fn section(&mut self, kind: Kind, length: usize) -> Result<&'a [u8], Stop> {
        let start = self.place;
        let reach = length.min(self.bytes.len() - start);
        self.place += reach;
        self.reading.sections.push((kind, start..self.place));
        if reach < length {
            return Err(Stop::RanOut);
        }
        Ok(&self.bytes[start..self.place])
    }

    /// A section that runs to the first such end, refused if as many bytes as the limit have come without it: that goes
    /// before its text.
    fn section_to(
        &mut self,
        kind: Kind,
        end: &[u8],
        limit: usize,
        refusal: fn(usize) -> Refusal,
    ) -> Result<&'a [u8], Stop> {
        let rest = &self.bytes[self.place..];
        let reach = rest.len().min(limit);
        match text::find(&rest[..reach], end) {
            Some(start) => self.section(kind, start + end.len()),
            None => {
                self.section(kind, limit)?;
                Err(Stop::Refused(refusal(limit)))
            }
        }
    }

    /// The trailer's section: CR LF at once is the whole of it.
    fn trailer_section(&mut self) -> Result<&'a [u8], Stop> {
        if self.bytes[self.place..].starts_with(trailer::EMPTY) {
            return self.section(Kind::Trailer, trailer::EMPTY.len());
        }
        self.section_to(Kind::Trailer, trailer::END, trailer::LIMIT, Refusal::frame)
    }

    /// The whole stream: head, body, trailer. Gives the last event of a stream that is not refused.
    fn stream(&mut self, ring: &[Record], asked: &[u8]) -> Result<Event, Stop> {
        let bytes = self.section_to(Kind::Head, head::END, head::LIMIT, Refusal::head)?;
        let head = head::judge(bytes, ring, asked).map_err(Stop::Refused)?;
        self.ask(Question { message: head.signing_string.clone(), signature: head.signature, record: head.record })?;
        self.list(Event::HeadAccepted { status: head.status });
        self.reading.accepted = Some(head.clone());
        let total = self.body(&head)?;
        let bytes = self.trailer_section()?;
        trailer::judge(bytes).map_err(Stop::Refused)?;
        match ends::judge(&head, bytes, total, || self.hash_of_body()).map_err(Stop::Refused)? {
            End::Closed => Ok(Event::Closed { total }),
            End::Asked(question) => {
                self.ask(question)?;
                Ok(Event::Complete { total })
            }
        }
    }

    /// The SHA-256 of all blocks released.
    fn hash_of_body(&self) -> [u8; 32] {
        let blocks = self.reading.events.iter().filter_map(|placed| placed.block.clone());
        sha256(blocks.map(|range| &self.bytes[range]))
    }

    /// Chunk lines, data and data ends by turns, up to and with the 0 line and the release of the
    /// last block. Gives the total of this answer's body.
    fn body(&mut self, head: &Head) -> Result<u64, Stop> {
        let mut total: u64 = 0;
        // A part answer's first block comes later in the show, and what its first line tells is the hash before it
        let mut offset = head.part.map_or(0, |part| part.first);
        let mut hash: Option<[u8; 64]> = None;
        let mut block: Option<Range<usize>> = None;
        loop {
            let line = self.section_to(Kind::Line, chunk::END, chunk::LIMIT, Refusal::frame)?;
            let before = Before {
                block_size: head.block_size,
                block: block.as_ref().map(|range| range.len() as u32),
                total,
                part: head.part,
            };
            let line = chunk::judge(line, &before).map_err(Stop::Refused)?;
            match (line.extension, block.take()) {
                (Extension::Hash(told), _) => hash = Some(told),
                (Extension::Signature(signature), Some(range)) => {
                    hash = Some(self.block(head, offset, hash.as_ref(), range, signature)?);
                    offset += u64::from(head.block_size);
                }
                _ => (),
            }
            if line.size == 0 {
                return Ok(total);
            }
            let start = self.place;
            self.section(Kind::Data, line.size as usize)?;
            block = Some(start..self.place);
            total += u64::from(line.size);
            chunk::judge_data_end(self.section(Kind::DataEnd, 2)?).map_err(Stop::Refused)?;
        }
    }

    /// Asks about a block and lists its release. Gives its hash.
    fn block(
        &mut self,
        head: &Head,
        offset: u64,
        hash_before: Option<&[u8; 64]>,
        range: Range<usize>,
        signature: [u8; 64],
    ) -> Result<[u8; 64], Stop> {
        let hash = message::chain(hash_before, &self.bytes[range.clone()]);
        let message = message::block_message(&head.id, offset, &hash);
        self.ask(Question { message, signature, record: head.record })?;
        let length = range.len() as u32;
        self.list_block(Event::Block { offset, length }, Some(range));
        Ok(hash)
    }
}
