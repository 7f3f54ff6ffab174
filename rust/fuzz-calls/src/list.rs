//! One list of calls, drawn and compared as it goes.

use crate::buffers::{too_short, Buffers, Guarded, Lengths};
use crate::due::{count, result_of, same, word_of};
use crate::forged;
use crate::material::{ring_bytes, Material};
use crate::state;
use crate::tally::Tally;
use ouinet_reader::raw;
use second::calls::{Calls, Contents, Outcome, Word};
use second::event::Refusal;
use second::part::STATUS;
use second::plain::Kind;
use second::ring::Record;
use streams::asked::other_uri;
use streams::head;
use streams::rng::Rng;

/// The longest pieces of a list: most lists are cut small.
const MOST_PIECE: [usize; 8] = [1, 2, 5, 20, 100, 600, 5000, usize::MAX];
/// A stream of more bytes is read in few calls, since the second reader starts afresh at each. A head or trailer of any length is short.
const LONG: usize = 40_000;
/// Some lists hurry to the last bytes of their stream, no more than so many, since small pieces alone seldom come to a trailer.
const LAST_PART: usize = 900;
/// Names that are asked for beside those that the head has and lists.
const NAMES: [&[u8]; 14] = [
    b"X-Ouinet-URI",
    b"x-ouinet-sig0",
    b"Transfer-Encoding",
    b"(created)",
    b"(response-status)",
    b"date",
    b"Vary",
    b"",
    b"X-Ouinet-Version ",
    b"Digest",
    b"X-Ouinet-Data-Size",
    b"x-ouinet-sig1",
    b"Content-Range",
    b"X-Ouinet-HTTP-Status",
];

/// A ring as the library is lent it, and as the second reader is told.
struct LentRing {
    bytes: Vec<u8>,
    records: Vec<Record>,
}

enum Call {
    Feed { piece: Vec<u8>, ring: LentRing, uri: Vec<u8> },
    Answer { good: u8 },
    End,
}

pub struct List<'a> {
    material: &'a Material,
    rng: &'a mut Rng,
    most_piece: usize,
    /// Up to this place of the stream a feed has all that comes before it.
    hurry: usize,
    buffers: Buffers,
    /// What lay in the holds at first.
    first: Contents,
    /// The second reader's list of the same calls.
    calls: Calls,
    /// How many bytes of the stream were taken.
    place: usize,
}

impl<'a> List<'a> {
    pub fn new(material: &'a Material, rng: &'a mut Rng) -> Self {
        let buffers = Buffers::new(rng);
        let first = Contents {
            head: buffers.head.get().to_vec(),
            block: buffers.block.get().to_vec(),
            question: buffers.question.get().to_vec(),
        };
        let most_piece = if material.stream.len() > LONG { usize::MAX } else { *rng.pick(&MOST_PIECE) };
        let hurry = if rng.one_in(2) { material.stream.len().saturating_sub(rng.below(LAST_PART)) } else { 0 };
        List { material, rng, most_piece, hurry, buffers, first, calls: Calls::new(), place: 0 }
    }

    /// Makes the calls, up to a few after the last event.
    pub fn run(&mut self, tally: &mut Tally) -> Result<(), String> {
        tally.lists += 1;
        self.start()?;
        let mut left = if self.material.stream.len() > LONG { 12 } else { self.rng.between(8, 48) };
        let mut number = 0;
        while left > 0 {
            left -= 1;
            number += 1;
            self.step(tally).map_err(|what| format!("call {number}: {what}"))?;
            if left > 3 && self.calls.reading().is_final() {
                left = 3;
            }
            if self.rng.one_in(40) {
                forged::check(&self.buffers, self.material, self.rng, tally)
                    .map_err(|what| format!("a forged state after call {number}: {what}"))?;
            }
        }
        Ok(())
    }

    /// The fresh state; the rest of a longer buffer is left alone, and too short a one altogether.
    fn start(&mut self) -> Result<(), String> {
        let short = too_short(raw::STATE_SIZE, self.rng);
        if raw::fresh(self.buffers.state.lend(short)) != raw::SHORT {
            return Err(format!("a state of {short} bytes is taken"));
        }
        self.buffers.check()?;
        let length = self.buffers.state.len();
        if raw::fresh(self.buffers.state.lend(length)) != 0 {
            return Err("no fresh state".to_string());
        }
        self.buffers.state.accept_front(raw::STATE_SIZE);
        self.buffers.check()
    }

    fn step(&mut self, tally: &mut Tally) -> Result<(), String> {
        let call = self.draw();
        let lengths = self.draw_lengths();
        tally.calls += 1;
        if lengths.state < raw::STATE_SIZE || lengths.result < raw::RESULT_SIZE {
            tally.too_short += 1;
            let word = self.make(&call, &lengths);
            same("the returned word", &word, &raw::SHORT)?;
        } else {
            let is_late_uri = self.is_late_uri(&call);
            let outcome = self.tell(&call, &lengths);
            let word = self.make(&call, &lengths);
            same("the returned word", &word, &word_of(&outcome.word))?;
            self.expect(&outcome);
            count(&outcome.word, tally);
            tally.late_uris += u64::from(is_late_uri && !leaves_all(&outcome.word));
            self.count_kinds(&outcome.word, tally);
        }
        self.buffers.check()?;
        self.check_part()?;
        self.check_block()?;
        self.check_value(tally)
    }

    /// Counts what is special about a word.
    fn count_kinds(&self, word: &Word, tally: &mut Tally) {
        let is_accepted = matches!(word, Word::HeadAccepted { .. });
        tally.longer += u64::from(is_accepted && head::is_longer(self.calls.bytes()));
        tally.ends += u64::from(matches!(word, Word::Question(_)) && self.is_at_end());
        tally.parts += u64::from(matches!(word, Word::HeadAccepted { status: STATUS }));
        tally.closed_parts += u64::from(matches!(word, Word::Closed { .. }) && self.is_part());
    }

    fn is_part(&self) -> bool {
        self.calls.reading().accepted.is_some_and(|head| head.part.is_some())
    }

    /// Whether a call is lent another URI than the one that fits, when the head has been judged.
    fn is_late_uri(&self, call: &Call) -> bool {
        let is_other = matches!(call, Call::Feed { uri, .. } if *uri != self.material.uri);
        is_other && !self.calls.reading().events.is_empty()
    }

    /// Whether the trailer has come, so that a question is about the end of the show.
    fn is_at_end(&self) -> bool {
        matches!(self.calls.reading().sections.last(), Some((Kind::Trailer, _)))
    }

    /// Mostly what is due; now and then anything.
    fn draw(&mut self) -> Call {
        let reading = self.calls.reading();
        let rest = self.material.stream.len() - self.place;
        match self.rng.below(100) {
            0..=4 => self.feed(),
            5..=8 => self.answer(),
            9 => Call::End,
            _ if reading.is_open() => self.answer(),
            _ if rest == 0 && self.rng.one_in(2) => Call::End,
            _ => self.feed(),
        }
    }

    fn answer(&mut self) -> Call {
        Call::Answer { good: if self.rng.one_in(25) { 0 } else { *self.rng.pick(&[1, 1, 1, 2, 128, 255]) } }
    }

    fn feed(&mut self) -> Call {
        let rest = &self.material.stream[self.place..];
        let length = match self.rng.below(12) {
            0 => 0,
            _ if self.place < self.hurry => self.hurry - self.place,
            1..=3 => near_line_end(rest, self.rng),
            4 if self.rng.one_in(4) => rest.len(),
            _ => self.rng.between(1, self.most_piece.min(rest.len().max(1))).min(rest.len()),
        };
        let mut piece = rest[..length].to_vec();
        if self.rng.one_in(150) {
            let garbage = self.rng.between(1, 9);
            piece = self.rng.bytes(garbage);
        }
        Call::Feed { piece, ring: self.ring(), uri: self.uri() }
    }

    /// The ring that fits, or now and then another one, one that is too long, or bytes that are no ring.
    fn ring(&mut self) -> LentRing {
        let fitting = &self.material.ring;
        let too_many = || vec![Record { key: [0; 32], first: 0, last: 0 }; 17];
        match self.rng.below(60) {
            0 => LentRing { bytes: Vec::new(), records: Vec::new() },
            1 => LentRing { bytes: ring_bytes(&too_many()), records: too_many() },
            2 => {
                let mut bytes = ring_bytes(fitting);
                let odd = self.rng.between(1, raw::RECORD_SIZE - 1);
                bytes.extend(self.rng.bytes(odd));
                LentRing { bytes, records: too_many() }
            }
            3 => {
                let mut records = fitting.clone();
                self.rng.shuffle(&mut records);
                LentRing { bytes: ring_bytes(&records), records }
            }
            _ => LentRing { bytes: ring_bytes(fitting), records: fitting.clone() },
        }
    }

    /// The URI that fits, or now and then another one. When the head has been judged none is looked at, so any will do.
    fn uri(&mut self) -> Vec<u8> {
        let fitting = &self.material.uri;
        let other = if self.calls.reading().events.is_empty() { 40 } else { 3 };
        match self.rng.below(other) {
            0 => other_uri(fitting, self.rng),
            _ => fitting.clone(),
        }
    }

    /// Whole buffers, or now and then one that is too short.
    fn draw_lengths(&mut self) -> Lengths {
        let mut lengths = self.buffers.whole();
        let rng = &mut *self.rng;
        match rng.below(60) {
            0 => lengths.holds.head = too_short(raw::HEAD_SIZE, rng),
            1 => lengths.holds.block = too_short(raw::BLOCK_SIZE, rng),
            2 => lengths.holds.question = too_short(raw::QUESTION_SIZE, rng),
            3 => lengths.state = too_short(raw::STATE_SIZE, rng),
            4 => lengths.result = too_short(raw::RESULT_SIZE, rng),
            _ => (),
        }
        lengths
    }

    /// Makes the call on the library.
    fn make(&mut self, call: &Call, lengths: &Lengths) -> u8 {
        let mut lent = self.buffers.lend(lengths);
        match call {
            Call::Feed { piece, ring, uri } => raw::feed(&mut lent, &ring.bytes, uri, piece),
            Call::Answer { good } => raw::answer(&mut lent, *good),
            Call::End => raw::end(&mut lent),
        }
    }

    /// Tells the second reader of the call.
    fn tell(&mut self, call: &Call, lengths: &Lengths) -> Outcome {
        match call {
            Call::Feed { piece, ring, uri } => {
                let outcome = self.calls.feed(lengths.holds, &ring.records, uri, piece);
                self.place = (self.place + outcome.taken).min(self.material.stream.len());
                outcome
            }
            Call::Answer { good } => self.calls.answer(lengths.holds, *good != 0),
            Call::End => self.calls.end(lengths.holds),
        }
    }

    /// Says what must lie in the buffers after a call. One that is refused with 1 or 2 leaves all but the result alone; any
    /// other may change the state, whose bytes are the library's own.
    fn expect(&mut self, outcome: &Outcome) {
        self.buffers.result.expect(&result_of(outcome));
        if leaves_all(&outcome.word) {
            return;
        }
        self.buffers.state.accept_front(raw::STATE_SIZE);
        let contents = self.calls.contents(&self.first);
        self.buffers.head.expect(&contents.head);
        self.buffers.block.expect(&contents.block);
        self.buffers.question.expect(&contents.question);
    }

    /// Which bytes of its show an accepted head says that come.
    fn check_part(&self) -> Result<(), String> {
        let reading = self.calls.reading();
        match &reading.accepted {
            Some(head) if !reading.is_final() => state::check(self.buffers.state.get(), head.part),
            _ => Ok(()),
        }
    }

    /// The handed-out block, and none from buffers that are too short.
    fn check_block(&mut self) -> Result<(), String> {
        let (state, block) = (self.buffers.state.get(), self.buffers.block.get());
        let length = raw::block(state, block);
        let due = self.calls.block(block.len());
        same("the block's length", &length, &due.len())?;
        same("the block", &&block[..length], &due)?;
        let short = too_short(raw::BLOCK_SIZE, self.rng);
        same("the block in a short buffer", &raw::block(state, &block[..short]), &0)?;
        let short = too_short(raw::STATE_SIZE, self.rng);
        same("the block of a short state", &raw::block(&state[..short], block), &0)
    }

    /// The value of a field and the count of its lines; none from buffers that are too short.
    fn check_value(&mut self, tally: &mut Tally) -> Result<(), String> {
        if !self.rng.one_in(3) {
            return Ok(());
        }
        let name = self.any_name();
        let head = match self.rng.below(12) {
            0 => too_short(raw::HEAD_SIZE, self.rng),
            _ => self.buffers.head.len(),
        };
        let due = self.calls.value(head, &name).to_vec();
        let count = self.calls.value_count(head, &name);
        tally.values += u64::from(!due.is_empty());
        tally.repeated += u64::from(count > 1);
        let room = match self.rng.below(3) {
            0 => self.rng.below(due.len() + 1),
            1 => due.len(),
            _ => due.len() + self.rng.below(40),
        };
        let mut value = Guarded::new(room, self.rng);
        let (state, head) = (self.buffers.state.get(), &self.buffers.head.get()[..head]);
        let length = raw::value(state, head, &name, value.lend(room));
        same("a value's length", &length, &due.len())?;
        if due.len() <= room {
            value.expect(&due);
        }
        value.check("value")?;
        same("the count of a field's lines", &raw::value_count(state, head, &name), &count)?;
        let short = too_short(raw::STATE_SIZE, self.rng);
        same("the count of a short state", &raw::value_count(&state[..short], head, &name), &0)
    }

    /// A name in any case: one of the table's, of the stream's first lines whether they have come or not, or of the signed list.
    fn any_name(&mut self) -> Vec<u8> {
        let accepted = self.calls.reading().accepted;
        let mut name = match (self.rng.below(4), accepted) {
            (0, _) => self.rng.pick(&NAMES).to_vec(),
            (1 | 2, Some(head)) => self.rng.pick(&head.signed).name.clone(),
            _ => self.material.any_name(self.rng),
        };
        match self.rng.below(3) {
            0 => name.make_ascii_uppercase(),
            1 => name.make_ascii_lowercase(),
            _ => (),
        }
        name
    }
}

/// Whether a word says that the call changed nothing.
fn leaves_all(word: &Word) -> bool {
    matches!(word, Word::Refused(Refusal { number: 1 | 2, .. }))
}

/// Up to a line feed somewhere in the rest, or a byte or two before or behind it.
fn near_line_end(rest: &[u8], rng: &mut Rng) -> usize {
    let from = rng.below(rest.len().min(700) + 1);
    let line_end = rest[from..].iter().position(|&byte| byte == b'\n').map_or(rest.len(), |place| from + place);
    (line_end + rng.below(5)).saturating_sub(2).min(rest.len())
}
