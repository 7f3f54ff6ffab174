//! Lent buffers with marks around them, and what must lie in them.

use ouinet_reader::raw::{self, Lent};
use second::calls::Holds;
use std::ops::Range;
use streams::limits::before;
use streams::rng::Rng;

/// So many marked bytes lie before and behind each buffer.
const MARGIN: usize = 64;

/// A buffer within marks, and a copy of what must lie in both.
#[derive(Clone)]
pub struct Guarded {
    bytes: Vec<u8>,
    due: Vec<u8>,
}

impl Guarded {
    pub fn new(length: usize, rng: &mut Rng) -> Self {
        let mark = rng.byte();
        let bytes: Vec<u8> = (0..length + 2 * MARGIN).map(|place| mark ^ place as u8).collect();
        Guarded { due: bytes.clone(), bytes }
    }

    fn inner(&self) -> Range<usize> {
        MARGIN..self.bytes.len() - MARGIN
    }

    pub fn len(&self) -> usize {
        self.inner().len()
    }

    pub fn is_empty(&self) -> bool {
        self.len() == 0
    }

    pub fn get(&self) -> &[u8] {
        &self.bytes[self.inner()]
    }

    /// The first bytes, as many as are to be lent.
    pub fn lend(&mut self, length: usize) -> &mut [u8] {
        &mut self.bytes[MARGIN..MARGIN + length]
    }

    /// Says what must now lie at the front.
    pub fn expect(&mut self, front: &[u8]) {
        self.due[MARGIN..MARGIN + front.len()].copy_from_slice(front);
    }

    /// Takes what lies in the buffer itself as right; the marks must still be there.
    pub fn accept(&mut self) {
        let inner = self.inner();
        self.due[inner.clone()].copy_from_slice(&self.bytes[inner]);
    }

    /// The same for so many first bytes.
    pub fn accept_front(&mut self, length: usize) {
        let front = MARGIN..MARGIN + length;
        self.due[front.clone()].copy_from_slice(&self.bytes[front]);
    }

    /// Whether buffer and marks are as they must be; if not, where the first wrong byte lies.
    pub fn check(&self, name: &str) -> Result<(), String> {
        if self.bytes == self.due {
            return Ok(());
        }
        let place = self.bytes.iter().zip(&self.due).position(|(is, due)| is != due).unwrap_or(0);
        let at = place as isize - MARGIN as isize;
        Err(format!("byte {at} of the {name} is {}, and {} is due", self.bytes[place], self.due[place]))
    }
}

/// All buffers of a list of calls.
#[derive(Clone)]
pub struct Buffers {
    pub state: Guarded,
    pub head: Guarded,
    pub block: Guarded,
    pub question: Guarded,
    pub result: Guarded,
}

/// How many bytes of each buffer a call is lent.
#[derive(Clone, Copy, Debug)]
pub struct Lengths {
    pub state: usize,
    pub holds: Holds,
    pub result: usize,
}

impl Buffers {
    /// Buffers of the least lengths, or a few bytes longer.
    pub fn new(rng: &mut Rng) -> Self {
        let extra = |rng: &mut Rng| if rng.one_in(4) { rng.between(1, 40) } else { 0 };
        let mut make = |least: usize| Guarded::new(least + extra(rng), rng);
        Buffers {
            state: make(raw::STATE_SIZE),
            head: make(raw::HEAD_SIZE),
            block: make(raw::BLOCK_SIZE),
            question: make(raw::QUESTION_SIZE),
            result: make(raw::RESULT_SIZE),
        }
    }

    /// All of each buffer.
    pub fn whole(&self) -> Lengths {
        let holds = Holds { head: self.head.len(), block: self.block.len(), question: self.question.len() };
        Lengths { state: self.state.len(), holds, result: self.result.len() }
    }

    pub fn lend(&mut self, lengths: &Lengths) -> Lent<'_> {
        Lent {
            state: self.state.lend(lengths.state),
            head: self.head.lend(lengths.holds.head),
            block: self.block.lend(lengths.holds.block),
            question: self.question.lend(lengths.holds.question),
            result: self.result.lend(lengths.result),
        }
    }

    /// Whether every byte is as it must be.
    pub fn check(&self) -> Result<(), String> {
        self.state.check("state")?;
        self.check_holds()?;
        self.result.check("result")
    }

    pub fn check_holds(&self) -> Result<(), String> {
        self.head.check("head")?;
        self.block.check("block")?;
        self.question.check("question")
    }

    /// The four numbers and the signature of the last result.
    pub fn result_bytes(&self) -> [u8; raw::RESULT_SIZE] {
        let mut bytes = [0; raw::RESULT_SIZE];
        bytes.copy_from_slice(&self.result.get()[..raw::RESULT_SIZE]);
        bytes
    }
}

/// One of these lengths made too short: empty, one byte short, as a head and a question could be before, or anything between.
pub fn too_short(least: usize, rng: &mut Rng) -> usize {
    match rng.below(4) {
        0 => 0,
        1 => least - 1,
        2 => before::SECTION.min(least - 1),
        _ => rng.below(least),
    }
}
