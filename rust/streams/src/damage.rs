//! Damage to small streams: a byte changed, deleted or inserted, or the rest cut off, at every
//! place; and several random edits at once.

use crate::case::{Answering, Case};
use crate::example;
use crate::plan::{Built, SizeStyle};
use crate::rng::Rng;

#[derive(Clone, Copy, Debug, PartialEq, Eq)]
pub enum Damage {
    Change,
    Delete,
    Insert,
    Truncate,
}

/// One damage to one stream at one place.
#[derive(Clone, Copy)]
pub struct Hit {
    pub stream: usize,
    pub damage: Damage,
    pub place: usize,
}

/// The small streams that are damaged at every place.
pub fn streams() -> Vec<Built> {
    let mut empty = example::short_plan();
    empty.blocks.clear();
    empty.status = b"302".to_vec();
    empty.reason.clear();
    let mut two = example::short_plan();
    two.block_size = 3;
    two.blocks = vec![b"abc".to_vec(), b"\r\n\r".to_vec()];
    two.sizes = SizeStyle::Padded(8);
    two.gaps = ["", " ", "\t", "  ", " \t ", ""].map(|gap| gap.as_bytes().to_vec());
    two.trailer = b"A: b\r\nC:\r\n\r\n".to_vec();
    [example::plan(), example::short_plan(), empty, two].iter().map(|plan| plan.build()).collect()
}

/// Every damage at every place of these streams.
pub fn every_place(streams: &[Built]) -> Vec<Hit> {
    let mut hits = Vec::new();
    for (stream, built) in streams.iter().enumerate() {
        let length: usize = built.parts.iter().map(|part| part.bytes.len()).sum();
        for damage in [Damage::Change, Damage::Delete, Damage::Insert, Damage::Truncate] {
            let places = if damage == Damage::Insert { length + 1 } else { length };
            hits.extend((0..places).map(|place| Hit { stream, damage, place }));
        }
    }
    hits
}

/// The case of one hit. What a truncated stream gives is known exactly.
pub fn case(hit: Hit, streams: &[Built], rng: &mut Rng) -> Case {
    let built = &streams[hit.stream];
    let mut bytes = built.bytes();
    let label = format!("{:?} at {} of small stream {}", hit.damage, hit.place, hit.stream);
    match hit.damage {
        Damage::Change => bytes[hit.place] = other_byte(bytes[hit.place], rng),
        Damage::Delete => {
            bytes.remove(hit.place);
        }
        Damage::Insert => bytes.insert(hit.place, odd_byte(rng)),
        Damage::Truncate => {
            bytes.truncate(hit.place);
            let known = built.known(bytes, built.lines_of_beginning(hit.place));
            return Case::known(label, known, Answering::AllYes, rng);
        }
    }
    let verified = rng.one_in(3);
    Case::damaged(label, bytes, built, verified, rng)
}

/// Bytes that mean something somewhere in a stream, and some that mean nothing anywhere.
pub fn odd_byte(rng: &mut Rng) -> u8 {
    if rng.one_in(2) {
        *rng.pick(b"\r\n \t\0:;,=\"()0159aAfFgGzZ+-_/.~\x7f\x80\xff")
    } else {
        rng.byte()
    }
}

/// A byte unlike this one; often one that differs in one bit or in case.
fn other_byte(byte: u8, rng: &mut Rng) -> u8 {
    loop {
        let new = match rng.below(3) {
            0 => byte ^ 1 << rng.below(8),
            1 if byte.is_ascii_alphabetic() => byte ^ 32,
            _ => odd_byte(rng),
        };
        if new != byte {
            return new;
        }
    }
}

/// Texts that are put in at random places.
const TOKENS: [&[u8]; 34] = [
    b"\r\n",
    b"\r\n\r\n",
    b"\r",
    b"\n",
    b" ",
    b"\t",
    b",",
    b", ",
    b" ,",
    b"=",
    b"\"",
    b":",
    b";",
    b";ouisig=",
    b"0",
    b"1",
    b"00000000",
    b"0\r\n\r\n",
    b"(created)",
    b"(response-status) ",
    b" x-ouinet-sig0",
    b" x-ouinet-bsigs",
    b"chunked",
    b"X-Ouinet-Version: 4\r\n",
    b"x-ouinet-version: 5\r\n",
    b"Content-Length: 5\r\n",
    b"Date: now\r\n",
    b"A:\r\n",
    b"HTTP/1.1 200 OK\r\n",
    b"id=",
    b",ts=",
    b"size=",
    b"==",
    b"\r\n0;ouisig=",
];

/// A few random edits to a stream: bytes, tokens, stretches deleted, doubled or moved, parts left
/// out, doubled or swapped.
pub fn several(built: &Built, rng: &mut Rng) -> Case {
    let mut built = built.clone();
    let verified = rng.one_in(2);
    if rng.one_in(3) {
        shuffle_parts(&mut built, rng);
    }
    let mut bytes = built.bytes();
    for _ in 0..rng.between(1, 3) {
        edit(&mut bytes, rng);
    }
    Case::damaged("several edits", bytes, &built, verified, rng)
}

fn shuffle_parts(built: &mut Built, rng: &mut Rng) {
    let count = built.parts.len();
    let (one, other) = (rng.below(count), rng.below(count));
    match rng.below(3) {
        0 => built.parts.swap(one, other),
        1 => {
            built.parts.remove(one);
        }
        _ => built.parts.insert(other, built.parts[one].clone()),
    }
}

fn edit(bytes: &mut Vec<u8>, rng: &mut Rng) {
    if bytes.is_empty() {
        return;
    }
    let place = rng.below(bytes.len());
    let end = (place + rng.between(1, 20)).min(bytes.len());
    match rng.below(7) {
        0 => bytes[place] = other_byte(bytes[place], rng),
        1 => {
            bytes.drain(place..end);
        }
        2 => bytes.insert(place, odd_byte(rng)),
        3 => {
            let copy = bytes[place..end].to_vec();
            bytes.splice(place..place, copy);
        }
        4 => {
            let token = *rng.pick(&TOKENS);
            bytes.splice(place..place, token.iter().copied());
        }
        5 => {
            let token = *rng.pick(&TOKENS);
            bytes.splice(place..end, token.iter().copied());
        }
        _ => {
            let moved: Vec<u8> = bytes.drain(place..end).collect();
            let to = rng.below(bytes.len() + 1);
            bytes.splice(to..to, moved);
        }
    }
}
