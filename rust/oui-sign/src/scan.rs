//! A signed stream that is there already, read block by block: each with its signature and its hash. Every signature is verified, with the key
//! that the stream itself names, so that what is passed on is whole; whether that key is to be trusted is for whoever reads it.

use second::base64::decode_key;
use second::event::{Event, Question};
use second::head::{self, Head};
use second::reader::Reader;
use second::ring::Record;
use std::io::{self, Read};

/// So many bytes are read at a time, at most.
const MOST_PIECE: usize = 65_536;

/// Why a stream cannot be read on.
#[derive(Debug)]
pub enum Fault {
    Read(io::Error),
    /// It breaks the rule of this number.
    Refused(u8),
}

/// What a refusal is about, in a few words.
pub fn why(number: u8) -> &'static str {
    match number {
        3 => "its head is not well formed",
        4 => "its head breaks a rule of signed streams",
        5 => "it is of another version than 4",
        6 => "a chunk line, the end of a chunk or the trailer is wrong",
        7 => "a chunk has a wrong size",
        8 => "a block's signature is missing, or stands where none is due",
        9 => "its body is too long",
        10 => "a signature is wrong",
        11 => "it stops before its end",
        12 => "it is not signed with one key throughout",
        13 => "its fields about the show's end are wrong",
        14 => "its body has another length than it says",
        15 => "its body has another SHA-256 than it says",
        _ => "it is no signed stream",
    }
}

/// A verified block.
pub struct Block<'a> {
    pub offset: u64,
    pub bytes: &'a [u8],
    pub signature: [u8; 64],
    /// The chain of hashes up to it.
    pub hash: [u8; 64],
}

/// A stream, read as far as its head at least, which is verified.
pub struct Scan<R> {
    source: R,
    reader: Reader,
    pub head: Head,
    /// The head as it stands in the stream.
    pub head_bytes: Vec<u8>,
    piece: Vec<u8>,
    /// How many bytes of the piece were taken.
    taken: usize,
    /// What was taken since the last block: at the end the trailer.
    since: Vec<u8>,
}

impl<R: Read> Scan<R> {
    /// Reads the head.
    pub fn start(mut source: R) -> Result<Self, Fault> {
        let piece = read_front(&mut source).map_err(Fault::Read)?;
        let length = head_length(&piece).unwrap_or(piece.len());
        let head_bytes = piece[..length].to_vec();
        let ring = own_ring(&head_bytes);
        let uri = head::uri(&head_bytes).unwrap_or_default().to_vec();
        let head = head::judge(&head_bytes, &ring, &uri);
        let mut reader = Reader::new(ring, uri);
        let question = feed_head(&mut reader, &head_bytes)?;
        let head = head.map_err(|refusal| Fault::Refused(refusal.number))?;
        let mut scan = Scan { source, reader, head, head_bytes, piece, taken: length, since: Vec::new() };
        scan.answer(&question).map(|_| scan)
    }

    /// The next block; none at the end of a good stream.
    pub fn next_block(&mut self) -> Result<Option<Block<'_>>, Fault> {
        let question = match self.event()? {
            Event::Question(question) => question,
            Event::Refused(refusal) => return Err(Fault::Refused(refusal.number)),
            _ => return Ok(None),
        };
        let Event::Block { offset, .. } = self.answer(&question)? else { return Ok(None) };
        self.since.clear();
        let hash = question.message.last_chunk().copied().unwrap_or([0; 64]);
        Ok(Some(Block { offset, bytes: self.reader.block(), signature: question.signature, hash }))
    }

    /// The trailer, once there is no further block.
    pub fn into_trailer(self) -> Vec<u8> {
        self.since
    }

    /// What a yes gives, or a no.
    fn answer(&mut self, question: &Question) -> Result<Event, Fault> {
        let good = sodium::verify(&self.head.key, &question.message, &question.signature);
        match self.reader.answer(good).expect("a question is open") {
            Event::Refused(refusal) => Err(Fault::Refused(refusal.number)),
            event => Ok(event),
        }
    }

    fn event(&mut self) -> Result<Event, Fault> {
        loop {
            if self.taken == self.piece.len() && !self.read_on().map_err(Fault::Read)? {
                return Ok(self.reader.end().expect("no question is open"));
            }
            let (count, event) = self.reader.feed(&self.piece[self.taken..]).expect("no question is open");
            self.since.extend_from_slice(&self.piece[self.taken..self.taken + count]);
            self.taken += count;
            if let Some(event) = event {
                return Ok(event);
            }
        }
    }

    /// The next piece, if there is one.
    fn read_on(&mut self) -> io::Result<bool> {
        self.piece.clear();
        self.taken = 0;
        self.source.by_ref().take(MOST_PIECE as u64).read_to_end(&mut self.piece)?;
        Ok(!self.piece.is_empty())
    }
}

/// The head's question, from a reader at its start.
fn feed_head(reader: &mut Reader, head: &[u8]) -> Result<Question, Fault> {
    match reader.feed(head).expect("no question is open").1 {
        Some(Event::Question(question)) => Ok(question),
        Some(Event::Refused(refusal)) => Err(Fault::Refused(refusal.number)),
        // All the bytes that there are were fed
        _ => Err(Fault::Refused(11)),
    }
}

/// The beginning of a stream, as much as a head may have.
fn read_front(source: &mut impl Read) -> io::Result<Vec<u8>> {
    let mut front = Vec::new();
    source.by_ref().take(head::LIMIT as u64).read_to_end(&mut front)?;
    Ok(front)
}

fn head_length(front: &[u8]) -> Option<usize> {
    let place = front.windows(head::END.len()).position(|window| window == head::END)?;
    Some(place + head::END.len())
}

/// A ring that trusts the key which the head names, at any time; nobody where it names none.
fn own_ring(head: &[u8]) -> Vec<Record> {
    let start = b"keyId=\"ed25519=";
    let lines = head.split(|&byte| byte == b'\n').filter(|line| is_sig0(line));
    let key = lines.into_iter().find_map(|line| {
        let place = line.windows(start.len()).position(|window| window == start)? + start.len();
        decode_key(line.get(place..place + 44)?)
    });
    key.map(|key| Record { key, first: 0, last: u64::MAX }).into_iter().collect()
}

fn is_sig0(line: &[u8]) -> bool {
    let name = b"X-Ouinet-Sig0:";
    line.get(..name.len()).is_some_and(|front| front.eq_ignore_ascii_case(name))
}
