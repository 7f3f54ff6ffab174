//! Random part answers that are changed in one way or another. Most changes break a rule, and some do not: what comes of them is reckoned.

use super::answer;
use super::heads::{OTHER_STATUSES, RANGES};
use crate::case::{Answering, Case};
use crate::head::Field;
use crate::limits::BODY;
use crate::part_answer::{numbers, ouihash, PartAnswer, RANGE, STATUS, STATUSES};
use crate::plan::{Built, Kind};
use crate::rng::Rng;
use crate::rules::edits::{digits, drop_both};

/// A change to an answer before it is built, or to the stream.
#[derive(Clone, Copy)]
enum Edit {
    Answer(fn(&mut PartAnswer, &mut Rng)),
    Stream(fn(&mut Built, &mut Rng)),
}

const EDITS: [(&str, Edit); 22] = [
    ("a number of its range moved", Edit::Answer(move_number)),
    ("two numbers of its range moved", Edit::Answer(|answer, rng| (0..2).for_each(|_| move_number(answer, rng)))),
    ("its range moved by blocks", Edit::Answer(move_range)),
    ("a character of its range changed", Edit::Answer(change_character)),
    ("a zero before a number of its range", Edit::Answer(put_zero)),
    ("another text for its range", Edit::Answer(|answer, rng| answer.set_range(*rng.pick(&RANGES)))),
    ("no range", Edit::Answer(|answer, _| drop_both(&mut answer.plan, RANGE))),
    ("its range twice", Edit::Answer(double_range)),
    ("no status", Edit::Answer(|answer, _| drop_both(&mut answer.plan, STATUS))),
    ("another text for its status", Edit::Answer(|answer, rng| set_status(answer, &OTHER_STATUSES, rng))),
    ("another status", Edit::Answer(|answer, rng| set_status(answer, &STATUSES, rng))),
    ("no hash told", Edit::Answer(|answer, _| answer.told = None)),
    ("some hash told", Edit::Answer(|answer, rng| answer.told = Some(rng.bytes(64)))),
    ("its last block left out", Edit::Answer(|answer, _| drop(answer.plan.blocks.pop()))),
    ("a block more", Edit::Answer(add_block)),
    ("a block cut short", Edit::Answer(shorten_block)),
    ("a byte more in its last block", Edit::Answer(lengthen_block)),
    ("a hash in place of a signature", Edit::Stream(|built, rng| set_extension(built, &ouihash(&[7; 64]), rng))),
    ("nothing in place of a signature", Edit::Stream(|built, rng| set_extension(built, b"", rng))),
    ("a signature on its first line", Edit::Stream(sign_first_line)),
    ("a size of 0 on some line", Edit::Stream(|built, rng| set_size(built, b"0", rng))),
    ("a size above all on some line", Edit::Stream(|built, rng| set_size(built, b"fffffff0", rng))),
];

/// A random answer and one change.
pub(super) fn case(rng: &mut Rng) -> Case {
    let mut answer = answer(rng);
    let (label, edit) = *rng.pick(&EDITS);
    if let Edit::Answer(edit) = edit {
        edit(&mut answer, rng);
    }
    let mut built = answer.build_unjudged();
    if let Edit::Stream(edit) = edit {
        edit(&mut built, rng);
    }
    answer.judge(&mut built);
    Case::whole(format!("a random part answer, {label}"), &built, Answering::AllYes, rng)
}

/// The three numbers of an honest range.
fn range_of(answer: &mut PartAnswer) -> [u64; 3] {
    numbers(&answer.plan.field(RANGE).value).unwrap_or_default()
}

fn set_numbers(answer: &mut PartAnswer, [first, last, total]: [u64; 3]) {
    answer.set_range(format!("bytes {first}-{last}/{total}"));
}

fn move_number(answer: &mut PartAnswer, rng: &mut Rng) {
    let (size, mut all) = (answer.plan.block_size as u64, range_of(answer));
    let number = rng.pick(&[0, 1, 2]);
    let old = all[*number];
    all[*number] = match rng.below(8) {
        0 => old + 1,
        1 => old.saturating_sub(1),
        2 => old + size,
        3 => old.saturating_sub(size),
        4 => *rng.pick(&[0, 1, BODY - 1, BODY, BODY + 1, 999_999_999_999, 1_000_000_000_000, u64::MAX]),
        5 => old + BODY,
        6 => all[rng.below(3)],
        _ => rng.next_u64() % (2 * old + 2),
    };
    set_numbers(answer, all);
}

/// The same number of bytes from another place.
fn move_range(answer: &mut PartAnswer, rng: &mut Rng) {
    let (size, [first, last, total]) = (answer.plan.block_size as u64, range_of(answer));
    let more = size * rng.below(4) as u64;
    let moved =
        if rng.one_in(2) { [first + more, last + more, total + more] } else { [0, last - first, last - first + 1] };
    set_numbers(answer, moved);
}

fn change_character(answer: &mut PartAnswer, rng: &mut Rng) {
    let mut value = answer.plan.field(RANGE).value.clone();
    let (place, byte) = (rng.below(value.len()), *rng.pick(b" \t0123456789-/*,bytesB+\x80"));
    match rng.below(3) {
        0 => value[place] = byte,
        1 => value.insert(place, byte),
        _ => drop(value.remove(place)),
    }
    answer.set_range(value);
}

fn put_zero(answer: &mut PartAnswer, rng: &mut Rng) {
    let mut texts = range_of(answer).map(|number| number.to_string());
    let chosen = rng.below(3);
    texts[chosen].insert(0, '0');
    let [first, last, total] = texts;
    answer.set_range(format!("bytes {first}-{last}/{total}"));
}

fn double_range(answer: &mut PartAnswer, rng: &mut Rng) {
    let value = if rng.one_in(2) { answer.plan.field(RANGE).value.clone() } else { b"x".to_vec() };
    let place = rng.below(answer.plan.fields.len() + 1);
    answer.plan.fields.insert(place, Field::new("content-range", value));
}

fn set_status(answer: &mut PartAnswer, statuses: &[&str], rng: &mut Rng) {
    answer.plan.field(STATUS).value = rng.pick(statuses).as_bytes().to_vec();
}

fn add_block(answer: &mut PartAnswer, rng: &mut Rng) {
    let length = rng.between(1, answer.plan.block_size);
    let block = rng.bytes(length);
    answer.plan.blocks.push(block);
}

fn shorten_block(answer: &mut PartAnswer, rng: &mut Rng) {
    let number = rng.below(answer.plan.blocks.len());
    let block = &mut answer.plan.blocks[number];
    // A block of one byte would become a 0 line
    block.truncate((block.len() - 1).max(1));
}

fn lengthen_block(answer: &mut PartAnswer, rng: &mut Rng) {
    let last = answer.plan.blocks.last_mut().expect("a block");
    last.push(rng.byte());
}

/// Puts this behind the size of a line that has a signature.
fn set_extension(built: &mut Built, extension: &[u8], rng: &mut Rng) {
    let lines = [&built.places(Kind::Line)[1..], &built.places(Kind::ZeroLine)].concat();
    let line = &mut built.parts[*rng.pick(&lines)].bytes;
    *line = [&line[..digits(line)], extension, b"\r\n"].concat();
}

fn sign_first_line(built: &mut Built, _: &mut Rng) {
    let zero_line = built.parts[built.places(Kind::ZeroLine)[0]].bytes.clone();
    let extension = &zero_line[digits(&zero_line)..];
    let first = built.places(Kind::Line)[0];
    let line = &mut built.parts[first].bytes;
    *line = [&line[..digits(line)], extension].concat();
}

/// A size that is refused at once, or nothing new where the line is the 0 line.
fn set_size(built: &mut Built, size: &[u8], rng: &mut Rng) {
    let lines = [built.places(Kind::Line), built.places(Kind::ZeroLine)].concat();
    let line = &mut built.parts[*rng.pick(&lines)].bytes;
    *line = [size, &line[digits(line)..]].concat();
}
