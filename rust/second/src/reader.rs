//! The same reading as `plain`, done piece by piece in bounded memory (paper 01, "How a sitting
//! goes"). It keeps at most one head, one block, one chunk line and one trailer.

use crate::chunk::{self, Before, ChunkLine, Extension};
use crate::ends::{self, End};
use crate::event::{Event, Question, Refusal};
use crate::head::{self, Head};
use crate::message;
use crate::other_show;
use crate::ring::Record;
use crate::sha256::Sha256;
use crate::trailer;

/// A call that came when it had no place: bytes or an end while a question is open or after the
/// last event, an answer without a question.
#[derive(Debug, Clone, Copy, PartialEq, Eq)]
pub struct WrongTime;

/// What comes next in the stream.
enum Stage {
    Head,
    HeadAsked(Box<Head>),
    Line,
    Data {
        left: u32,
    },
    DataEnd,
    /// The size is that of the chunk that comes after the block in question.
    BlockAsked {
        hash: [u8; 64],
        size: u32,
    },
    Trailer,
    /// The whole show is in question.
    EndAsked,
    Over,
}

/// The body as far as it has come.
struct Body {
    head: Head,
    /// The number of the block that is gathered now or next, from this answer's first.
    number: u64,
    /// The bytes of all blocks gathered.
    total: u64,
    /// The hash of the last released block, or of the one before a part answer.
    hash: Option<[u8; 64]>,
    /// The hash of all released blocks together, in the making (request #101).
    whole: Sha256,
    /// The block that is gathered or, after its release, handed out.
    block: Vec<u8>,
    /// Whether the block is whole and not yet released.
    waiting: bool,
    /// Whether the block is released and handed out.
    out: bool,
}

impl Body {
    fn after(head: Head) -> Self {
        Body {
            head,
            number: 0,
            total: 0,
            hash: None,
            whole: Sha256::new(),
            block: Vec::new(),
            waiting: false,
            out: false,
        }
    }

    /// The place of that block in the show.
    fn offset(&self) -> u64 {
        let first = self.head.part.map_or(0, |part| part.first);
        first + self.number * u64::from(self.head.block_size)
    }

    fn before(&self) -> Before {
        Before {
            block_size: self.head.block_size,
            block: self.waiting.then_some(self.block.len() as u32),
            total: self.total,
            part: self.head.part,
        }
    }
}

pub struct Reader {
    ring: Vec<Record>,
    /// The URI that the caller asked for.
    asked: Vec<u8>,
    /// The URI that the head gives, once that is refused with 16.
    other: Option<Vec<u8>>,
    stage: Stage,
    /// The bytes of the head, chunk line, data end or trailer that is under way.
    gathered: Vec<u8>,
    body: Option<Body>,
}

impl Reader {
    pub fn new(ring: Vec<Record>, asked: Vec<u8>) -> Self {
        Reader { ring, asked, other: None, stage: Stage::Head, gathered: Vec::new(), body: None }
    }

    /// After a refusal 16, a sentence for people: what was asked for, and what came.
    pub fn other_show(&self) -> Option<String> {
        self.other.as_ref().map(|other| other_show::sentence(&self.asked, other))
    }

    /// The released block, from its release to the next feed or end that is in time.
    pub fn block(&self) -> &[u8] {
        match &self.body {
            Some(body) if body.out => &body.block,
            _ => &[],
        }
    }

    /// Takes bytes up to the first event, or all of them, and says how many.
    pub fn feed(&mut self, piece: &[u8]) -> Result<(usize, Option<Event>), WrongTime> {
        if self.is_asking() || self.is_over() {
            return Err(WrongTime);
        }
        self.drop_released_block();
        let mut taken = 0;
        while taken < piece.len() {
            let (more, event) = self.step(&piece[taken..]);
            taken += more;
            if event.is_some() {
                return Ok((taken, event));
            }
        }
        Ok((taken, None))
    }

    /// Takes the answer to the open question.
    pub fn answer(&mut self, yes: bool) -> Result<Event, WrongTime> {
        if !self.is_asking() {
            return Err(WrongTime);
        }
        if !yes {
            return Ok(self.refuse(Refusal::plain(10)));
        }
        match std::mem::replace(&mut self.stage, Stage::Over) {
            Stage::HeadAsked(head) => {
                let status = head.status;
                self.body = Some(Body::after(*head));
                self.stage = Stage::Line;
                Ok(Event::HeadAccepted { status })
            }
            Stage::BlockAsked { hash, size } => {
                let body = self.body.as_mut().ok_or(WrongTime)?;
                let event = Event::Block { offset: body.offset(), length: body.block.len() as u32 };
                body.hash = Some(hash);
                body.whole.add(&body.block);
                body.number += 1;
                body.waiting = false;
                body.out = true;
                self.stage = after_line(size);
                Ok(event)
            }
            Stage::EndAsked => Ok(Event::Complete { total: self.body.as_ref().ok_or(WrongTime)?.total }),
            _ => Err(WrongTime),
        }
    }

    /// Is told that no bytes follow.
    pub fn end(&mut self) -> Result<Event, WrongTime> {
        if self.is_asking() || self.is_over() {
            return Err(WrongTime);
        }
        Ok(self.refuse(Refusal::plain(11)))
    }

    fn is_asking(&self) -> bool {
        matches!(self.stage, Stage::HeadAsked(_) | Stage::BlockAsked { .. } | Stage::EndAsked)
    }

    fn is_over(&self) -> bool {
        matches!(self.stage, Stage::Over)
    }

    fn drop_released_block(&mut self) {
        if let Some(body) = self.body.as_mut().filter(|body| body.out) {
            body.block.clear();
            body.out = false;
        }
    }

    fn refuse(&mut self, refusal: Refusal) -> Event {
        self.stage = Stage::Over;
        self.body = None;
        self.gathered = Vec::new();
        Event::Refused(refusal)
    }

    /// Takes at least one byte of a piece that has some, within the section under way.
    fn step(&mut self, piece: &[u8]) -> (usize, Option<Event>) {
        if let Stage::Data { left } = self.stage {
            let count = (left as usize).min(piece.len());
            self.gather_data(&piece[..count], left);
            return (count, None);
        }
        self.gathered.push(piece[0]);
        let event = match self.stage {
            Stage::Head => self.head_byte(),
            Stage::Line => self.line_byte(),
            Stage::DataEnd => self.data_end_byte(),
            Stage::Trailer => self.trailer_byte(),
            Stage::Data { .. } | Stage::HeadAsked(_) | Stage::BlockAsked { .. } | Stage::EndAsked | Stage::Over => None,
        };
        (1, event)
    }

    fn gather_data(&mut self, bytes: &[u8], left: u32) {
        let Some(body) = self.body.as_mut() else { return };
        body.block.extend_from_slice(bytes);
        let left = left - bytes.len() as u32;
        if left > 0 {
            self.stage = Stage::Data { left };
        } else {
            body.waiting = true;
            body.total += body.block.len() as u64;
            self.stage = Stage::DataEnd;
        }
    }

    fn head_byte(&mut self) -> Option<Event> {
        if self.gathered.ends_with(head::END) {
            let bytes = std::mem::take(&mut self.gathered);
            return Some(match head::judge(&bytes, &self.ring, &self.asked) {
                Ok(head) => {
                    let question = Question {
                        message: head.signing_string.clone(),
                        signature: head.signature,
                        record: head.record,
                    };
                    self.stage = Stage::HeadAsked(Box::new(head));
                    Event::Question(question)
                }
                Err(refusal) => {
                    self.other = head::uri(&bytes).filter(|_| refusal.number == 16).map(<[u8]>::to_vec);
                    self.refuse(refusal)
                }
            });
        }
        (self.gathered.len() == head::LIMIT).then(|| self.refuse(Refusal::head(head::LIMIT)))
    }

    fn line_byte(&mut self) -> Option<Event> {
        if self.gathered.ends_with(chunk::END) {
            let bytes = std::mem::take(&mut self.gathered);
            let before = self.body.as_ref()?.before();
            return match chunk::judge(&bytes, &before) {
                Ok(line) => self.line(line),
                Err(refusal) => Some(self.refuse(refusal)),
            };
        }
        (self.gathered.len() == chunk::LIMIT).then(|| self.refuse(Refusal::frame(chunk::LIMIT)))
    }

    /// A good line: a question if it carries a signature, else the next section.
    fn line(&mut self, line: ChunkLine) -> Option<Event> {
        let body = self.body.as_mut()?;
        if let Extension::Hash(told) = line.extension {
            body.hash = Some(told);
        }
        let Extension::Signature(signature) = line.extension else {
            self.stage = after_line(line.size);
            return None;
        };
        let hash = message::chain(body.hash.as_ref(), &body.block);
        let question = Question {
            message: message::block_message(&body.head.id, body.offset(), &hash),
            signature,
            record: body.head.record,
        };
        self.stage = Stage::BlockAsked { hash, size: line.size };
        Some(Event::Question(question))
    }

    fn data_end_byte(&mut self) -> Option<Event> {
        if self.gathered.len() < 2 {
            return None;
        }
        let bytes = std::mem::take(&mut self.gathered);
        match chunk::judge_data_end(&bytes) {
            Ok(()) => {
                self.stage = Stage::Line;
                None
            }
            Err(refusal) => Some(self.refuse(refusal)),
        }
    }

    fn trailer_byte(&mut self) -> Option<Event> {
        if trailer::is_whole(&self.gathered) {
            let Body { head, total, whole, .. } = self.body.as_ref()?;
            let judged = trailer::judge(&self.gathered)
                .and_then(|()| ends::judge(head, &self.gathered, *total, || whole.clone().finish()));
            let total = *total;
            return Some(match judged {
                Ok(End::Closed) => {
                    self.stage = Stage::Over;
                    Event::Closed { total }
                }
                Ok(End::Asked(question)) => {
                    self.stage = Stage::EndAsked;
                    Event::Question(question)
                }
                Err(refusal) => self.refuse(refusal),
            });
        }
        (self.gathered.len() == trailer::LIMIT).then(|| self.refuse(Refusal::frame(trailer::LIMIT)))
    }
}

/// What comes after a line that announced this size.
fn after_line(size: u32) -> Stage {
    if size == 0 {
        Stage::Trailer
    } else {
        Stage::Data { left: size }
    }
}
