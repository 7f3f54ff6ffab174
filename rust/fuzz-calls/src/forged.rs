//! States that no call wrote. For them the library promises safety, and refusals 1 and 2: it stays within the named first part of each
//! buffer, names no length beyond it, takes no more than the piece has, says one of the words, and says the same each time.

use crate::buffers::{too_short, Buffers, Lengths};
use crate::due::same;
use crate::material::{ring_bytes, Material};
use crate::state::{self, number, put};
use crate::tally::Tally;
use ouinet_reader::raw::{self, Outcome};
use streams::asked::other_uri;
use streams::rng::Rng;

/// Numbers at or beside a limit somewhere.
const NUMBERS: [u64; 21] = [
    0,
    1,
    2,
    3,
    9,
    10,
    127,
    128,
    8191,
    8192,
    8193,
    32_767,
    32_768,
    32_769,
    65_535,
    65_536,
    65_537,
    4_294_967_295,
    4_294_967_296,
    u64::MAX - 1,
    u64::MAX,
];
/// Where the state has its numbers: phase, two counts, accepted, status, block size, key, the id's length, block number,
/// released; of the hash of the body, two of its eight words, the first bytes that wait for the rest of a unit, and a count; then the four
/// about a part answer.
const PLACES: [usize; 18] =
    [0, 8, 16, 24, 32, 40, 48, 120, 128, 328, 336, 392, 400, 464, state::KIND, state::FIRST, state::LAST, state::TOTAL];
/// The phase in which the end of the show is in question, and the one in which it is complete. There is none beyond.
const END_ASKED: u64 = 10;
const COMPLETE: u64 = 11;
/// Phases are drawn below this, some of them beyond the last.
const MOST_PHASE: usize = 14;

/// Makes some calls on forged states, from the buffers as they are.
pub fn check(buffers: &Buffers, material: &Material, rng: &mut Rng, tally: &mut Tally) -> Result<(), String> {
    let mut buffers = buffers.clone();
    forge(&mut buffers, rng);
    for _ in 0..rng.between(1, 4) {
        tally.forged += 1;
        other_kind(&buffers, material, rng)?;
        step(&mut buffers, material, rng)?;
    }
    Ok(())
}

/// A state that is neither of a part answer nor of a whole one is read as that of a whole one: the same call says the same and leaves the
/// same in the working buffers.
fn other_kind(buffers: &Buffers, material: &Material, rng: &mut Rng) -> Result<(), String> {
    let call = draw(material, rng);
    let ring = ring_bytes(&material.ring);
    let other = 2 + rng.next_u64() % (u64::MAX - 1);
    let [one, two] = [0, other].map(|kind| {
        let mut buffers = buffers.clone();
        put(buffers.state.lend(raw::STATE_SIZE), state::KIND, kind);
        let lengths = buffers.whole();
        make(&mut buffers, &call, &ring, &lengths);
        buffers
    });
    for (name, one, two) in [
        ("result", &one.result, &two.result),
        ("head", &one.head, &two.head),
        ("block", &one.block, &two.block),
        ("question", &one.question, &two.question),
    ] {
        same(&format!("the {name} of a state of kind {other}"), &two.get(), &one.get())?;
    }
    Ok(())
}

/// Changes the state: all of it, some bytes, some numbers, its phase to one about an end that nobody has come to, or which bytes of a show
/// it is to have.
fn forge(buffers: &mut Buffers, rng: &mut Rng) {
    let length = buffers.state.len();
    let state = buffers.state.lend(length);
    match rng.below(6) {
        0 => {
            let bytes = rng.bytes(raw::STATE_SIZE);
            state[..raw::STATE_SIZE].copy_from_slice(&bytes);
            put(state, 0, rng.below(MOST_PHASE) as u64);
        }
        1 => {
            for _ in 0..rng.between(1, 6) {
                let place = rng.below(raw::STATE_SIZE);
                state[place] = rng.byte();
            }
        }
        2 => {
            put(state, 0, *rng.pick(&[END_ASKED, COMPLETE]));
            // The trailer's bytes and the body's length, or the total
            put(state, 8, *rng.pick(&NUMBERS));
            put(state, 16, *rng.pick(&NUMBERS));
        }
        3 => {
            put(state, state::KIND, *rng.pick(&[1, 1, 1, 0, 2, u64::MAX]));
            for place in [state::FIRST, state::LAST, state::TOTAL] {
                put(state, place, *rng.pick(&NUMBERS));
            }
        }
        _ => {
            for _ in 0..rng.between(1, 4) {
                let place = *rng.pick(&PLACES);
                let number = if place == 0 { rng.below(MOST_PHASE) as u64 } else { *rng.pick(&NUMBERS) };
                put(state, place, number);
            }
        }
    }
    buffers.state.accept();
}

enum Call {
    Feed { piece: Vec<u8>, uri: Vec<u8> },
    Answer(u8),
    End,
}

fn draw(material: &Material, rng: &mut Rng) -> Call {
    match rng.below(4) {
        0 => Call::Answer(rng.byte() & 1),
        1 if rng.one_in(3) => Call::End,
        _ => {
            let start = rng.below(material.stream.len() + 1);
            let rest = &material.stream[start..];
            let piece = rest[..rng.below(rest.len() + 1)].to_vec();
            let uri = if rng.one_in(2) { material.uri.clone() } else { other_uri(&material.uri, rng) };
            Call::Feed { piece, uri }
        }
    }
}

fn step(buffers: &mut Buffers, material: &Material, rng: &mut Rng) -> Result<(), String> {
    let call = draw(material, rng);
    let mut lengths = buffers.whole();
    let short = rng.one_in(8);
    if short {
        match rng.below(3) {
            0 => lengths.holds.head = too_short(raw::HEAD_SIZE, rng),
            1 => lengths.holds.block = too_short(raw::BLOCK_SIZE, rng),
            _ => lengths.holds.question = too_short(raw::QUESTION_SIZE, rng),
        }
    }
    let due = match number(buffers.state.get(), 0) {
        _ if short => Some(2),
        COMPLETE.. => Some(1),
        END_ASKED if !matches!(call, Call::Answer(_)) => Some(1),
        _ => None,
    };
    let before = buffers.clone();
    let mut again = buffers.clone();
    let ring = ring_bytes(&material.ring);
    let word = make(buffers, &call, &ring, &lengths);
    check_word(buffers, &before, &call, word, due)?;
    settle(buffers)?;
    check_parts(buffers, material, rng)?;
    make(&mut again, &call, &ring, &lengths);
    settle(&mut again)?;
    same_buffers(buffers, &again)
}

/// One of the words, no more taken than there was, and the refusal that is due for any state, which leaves the holds alone.
fn check_word(now: &Buffers, before: &Buffers, call: &Call, word: u8, due: Option<u64>) -> Result<(), String> {
    let outcome = Outcome::of(&now.result_bytes());
    same("the word", &outcome.word, &u64::from(word))?;
    let piece = if let Call::Feed { piece, .. } = call { piece.len() } else { 0 };
    if word > raw::COMPLETE || outcome.taken > piece as u64 {
        return Err(format!("word {word}, {} taken of {piece} bytes", outcome.taken));
    }
    let (named, size) = match word {
        raw::QUESTION => (outcome.first, raw::QUESTION_SIZE),
        raw::BLOCK | raw::REFUSED => (outcome.second, raw::BLOCK_SIZE),
        _ => (0, 0),
    };
    if named > size as u64 {
        return Err(format!("word {word} names {named} bytes of {size}"));
    }
    let refused = (word == raw::REFUSED).then_some(outcome.first);
    if refused.is_some_and(|number| number != 3 && number != 6) {
        same("the place of a refusal that has none", &outcome.second, &0)?;
    }
    if due.is_some() {
        same("the refusal", &refused, &due)?;
    }
    if matches!(refused, Some(1 | 2)) {
        same("the head after a refusal 1 or 2", &now.head.get(), &before.head.get())?;
        same("the block after a refusal 1 or 2", &now.block.get(), &before.block.get())?;
        same("the question after a refusal 1 or 2", &now.question.get(), &before.question.get())?;
    }
    Ok(())
}

fn make(buffers: &mut Buffers, call: &Call, ring: &[u8], lengths: &Lengths) -> u8 {
    let mut lent = buffers.lend(lengths);
    match call {
        Call::Feed { piece, uri } => raw::feed(&mut lent, ring, uri, piece),
        Call::Answer(good) => raw::answer(&mut lent, *good),
        Call::End => raw::end(&mut lent),
    }
}

/// Takes the named first part of each buffer as it is now; what lies beyond, and the marks, must be unchanged.
fn settle(buffers: &mut Buffers) -> Result<(), String> {
    buffers.state.accept_front(raw::STATE_SIZE);
    buffers.head.accept_front(raw::HEAD_SIZE);
    buffers.block.accept_front(raw::BLOCK_SIZE);
    buffers.question.accept_front(raw::QUESTION_SIZE);
    buffers.result.accept_front(raw::RESULT_SIZE);
    buffers.check()
}

/// The handed-out parts lie within the named first parts of their buffers, and a value has some lines, but not too many.
fn check_parts(buffers: &Buffers, material: &Material, rng: &mut Rng) -> Result<(), String> {
    let state = buffers.state.get();
    let block = raw::block(state, buffers.block.get());
    for name in [b"X-Ouinet-URI".to_vec(), material.any_name(rng)] {
        let mut value = [0; raw::HEAD_SIZE];
        let length = raw::value(state, buffers.head.get(), &name, &mut value);
        let count = raw::value_count(state, buffers.head.get(), &name);
        let is_there = length == 0 || count > 0;
        if block > raw::BLOCK_SIZE || length > raw::HEAD_SIZE || count > raw::FIELD_LIMIT || !is_there {
            return Err(format!("a block of {block} bytes, a value of {length} in {count} lines"));
        }
    }
    Ok(())
}

fn same_buffers(one: &Buffers, other: &Buffers) -> Result<(), String> {
    let parts = [
        ("state", &one.state, &other.state),
        ("head", &one.head, &other.head),
        ("block", &one.block, &other.block),
        ("question", &one.question, &other.question),
        ("result", &one.result, &other.result),
    ];
    match parts.iter().find(|(_, one, other)| one.get() != other.get()) {
        Some((name, ..)) => Err(format!("the same call twice leaves another {name}")),
        None => Ok(()),
    }
}
