//! Streams whose text is damaged in one section: the head, a chunk line, a data end or the trailer. A byte is replaced,
//! inserted or deleted, a CR or LF is lost, moved or doubled, a section is stretched to about its limit, a signature gets spare
//! bits, bad text stands among too many or doubled fields. Most of them are refused with 3 or 6, and the readers must agree
//! where the text goes wrong (request #106).

use crate::case::Case;
use crate::damage::odd_byte;
use crate::head::Field;
use crate::limits::{before, FIELDS, LINE, SECTION};
use crate::plan::{Built, Kind};
use crate::random;
use crate::rng::Rng;

/// How many cases the group has.
pub const COUNT: usize = 3600;

/// A case of a random stream.
pub fn case(rng: &mut Rng) -> Case {
    let built = random::bare_full_plan(rng).build();
    spoilt(built, rng)
}

/// A case of this stream, which must have a block at least.
pub fn spoilt(mut built: Built, rng: &mut Rng) -> Case {
    let (part, edits) = match rng.below(10) {
        0..=3 => (0, [&ANY[..], &LINES, &HEAD].concat()),
        4..=6 => (any_line(&built, rng), [&ANY[..], &CHUNK_LINE].concat()),
        7 => (*rng.pick(&built.places(Kind::DataEnd)), DATA_END.to_vec()),
        _ => (built.parts.len() - 1, [&ANY[..], &LINES].concat()),
    };
    if built.parts[part].kind == Kind::Trailer {
        built.parts[part].bytes = trailer_with_fields(rng);
    }
    let count = if rng.one_in(4) { 2 } else { 1 };
    let chosen: Vec<Edit> = (0..count).map(|_| *rng.pick(&edits)).collect();
    for (_, edit) in &chosen {
        edit(&mut built.parts[part].bytes, rng);
    }
    let names: Vec<&str> = chosen.iter().map(|(name, _)| *name).collect();
    let label = format!("{:?}: {}", built.parts[part].kind, names.join(", "));
    let mut stream = built.bytes();
    if rng.one_in(2) {
        // A section that has lost its end then finds its limit, and not the end of the stream
        stream.extend(b"x".repeat(SECTION));
    }
    let verified = rng.one_in(6);
    Case::damaged(label, stream, &built, verified, rng)
}

fn any_line(built: &Built, rng: &mut Rng) -> usize {
    *rng.pick(&[built.places(Kind::Line), built.places(Kind::ZeroLine)].concat())
}

/// One to three fields.
fn trailer_with_fields(rng: &mut Rng) -> Vec<u8> {
    let mut trailer = Vec::new();
    for _ in 0..rng.between(1, 3) {
        let length = rng.between(1, 12);
        trailer.extend(Field::new(rng.letters(b"aB-1!~", length), rng.letters(b"x \t\x80:", 9)).line());
    }
    trailer.extend(b"\r\n");
    trailer
}

type Edit = (&'static str, fn(&mut Vec<u8>, &mut Rng));

/// Edits of any text.
const REPLACE: Edit = ("a byte replaced", |text, rng| {
    if let Some(place) = any_place(text, rng) {
        text[place] = wrong_byte(rng);
    }
});
const INSERT: Edit = ("a byte inserted", |text, rng| {
    let place = rng.below(text.len() + 1);
    text.insert(place, wrong_byte(rng));
});
const DELETE: Edit = ("a byte deleted", |text, rng| {
    if let Some(place) = any_mark(text, rng) {
        text.remove(place);
    }
});
const LOSE_CR: Edit = ("a CR lost", |text, rng| {
    if let Some(place) = any_of(text, b"\r", rng) {
        text.remove(place);
    }
});
const LOSE_LF: Edit = ("an LF lost", |text, rng| {
    if let Some(place) = any_of(text, b"\n", rng) {
        text.remove(place);
    }
});
const MOVE_END: Edit = ("a line end doubled, turned round or put in", |text, rng| {
    let put = *rng.pick(&[&b"\r"[..], b"\n", b"\n\r", b"\r\r\n", b"\r\n"]);
    let place = match any_of(text, b"\r\n", rng) {
        Some(place) if rng.one_in(2) => place,
        _ => rng.below(text.len() + 1),
    };
    let end = (place + rng.below(3)).min(text.len());
    text.splice(place..end, put.iter().copied());
});

/// Edits of heads and trailers alone.
const STRETCH: Edit = ("a value stretched to about the limit, of now or before, and a byte replaced", |text, rng| {
    let limit = *rng.pick(&[before::SECTION, SECTION, SECTION]);
    let length = limit - 2 + rng.below(5);
    let colon = text.iter().rposition(|&byte| byte == b':').map_or(0, |place| place + 1);
    let lacking = length.saturating_sub(text.len());
    text.splice(colon..colon, b"p".repeat(lacking));
    if rng.one_in(2) {
        REPLACE.1(text, rng);
    }
});
const LONG_LINE: Edit = ("a byte far into a long line", |text, rng| {
    let colon = any_of(text, b":", rng).map_or(0, |place| place + 1);
    let most = *rng.pick(&[6000, 28_000]);
    let mut run = b"q".repeat(rng.between(100, most));
    let place = rng.below(run.len());
    run[place] = wrong_byte(rng);
    text.splice(colon..colon, run);
});
const BAD_LINE: Edit = ("a line that is no field", |text, rng| {
    let odd = *rng.pick(&[
        &b"A b:\r\n"[..],
        b":\r\n",
        b"\0:\r\n",
        b"A\r\n",
        b" A:\r\n",
        b"\r\r\n",
        b"A:\x7f\r\n",
        b"\rA:\r\n",
    ]);
    let place = line_start(text, rng);
    text.splice(place..place, odd.iter().copied());
});

/// Of any section but a data end, of heads and trailers, of heads, of chunk lines, and of data ends.
const ANY: [Edit; 6] = [REPLACE, INSERT, DELETE, LOSE_CR, LOSE_LF, MOVE_END];

const LINES: [Edit; 3] = [STRETCH, LONG_LINE, BAD_LINE];

const HEAD: [Edit; 4] = [
    ("a byte of the status line replaced", |text, rng| text[rng.below(13)] = wrong_byte(rng)),
    ("a byte of the status line lost", |text, rng| {
        text.remove(rng.below(13));
    }),
    ("too many fields, and perhaps a line that is none", |text, rng| {
        let fields: Vec<u8> = (0..rng.between(FIELDS - 4, FIELDS + 6))
            .flat_map(|number| format!("g{number}:\r\n").into_bytes())
            .collect();
        let end = text.len() - 2;
        text.splice(end..end, fields);
        if rng.one_in(2) {
            BAD_LINE.1(text, rng);
        }
    }),
    ("a field of ours twice, and perhaps a line that is none", |text, rng| {
        let end = text.len() - 2;
        text.splice(end..end, b"X-Ouinet-2: 1\r\nx-oUINET-2: 2\r\n".iter().copied());
        if rng.one_in(2) {
            BAD_LINE.1(text, rng);
        }
    }),
];

const CHUNK_LINE: [Edit; 4] = [
    ("a line stretched to about the limit", |text, rng| {
        let lacking = (LINE - 2 + rng.below(5)).saturating_sub(text.len());
        let place = rng.below(text.len() - 1);
        text.splice(place..place, b"A".repeat(lacking));
    }),
    ("too many digits", |text, rng| {
        let zeros = rng.between(1, 12);
        text.splice(0..0, b"0".repeat(zeros));
    }),
    ("spare bits", |text, rng| match text.len().checked_sub(5) {
        Some(last) if text.ends_with(b"==\r\n") => text[last] = *rng.pick(b"BDHPRXfhjv1359+/"),
        _ => REPLACE.1(text, rng),
    }),
    ("padding changed", |text, rng| {
        let end = text.len() - 2;
        let put = *rng.pick(&[&b"="[..], b"===", b"A=", b"=A", b"AA", b"", b";ouisig="]);
        text.splice(end.saturating_sub(2)..end, put.iter().copied());
    }),
];

const DATA_END: [Edit; 5] = [REPLACE, REPLACE, INSERT, LOSE_CR, MOVE_END];

/// A byte that is wrong in most places.
fn wrong_byte(rng: &mut Rng) -> u8 {
    match rng.below(4) {
        0 => odd_byte(rng),
        _ => *rng.pick(b"\r\n\0\x01\x08\x0b\x1f\x7f"),
    }
}

fn any_place<T>(text: &[T], rng: &mut Rng) -> Option<usize> {
    (!text.is_empty()).then(|| rng.below(text.len()))
}

/// The place of one of these bytes.
fn any_of(text: &[u8], bytes: &[u8], rng: &mut Rng) -> Option<usize> {
    let places: Vec<usize> = (0..text.len()).filter(|&place| bytes.contains(&text[place])).collect();
    any_place(&places, rng).map(|number| places[number])
}

/// The place of a byte that the text needs; now and then any place.
fn any_mark(text: &[u8], rng: &mut Rng) -> Option<usize> {
    match rng.below(3) {
        0 => any_place(text, rng),
        _ => any_of(text, b"\r\n:;=", rng),
    }
}

/// Where some line behind the first one starts; the empty line at the end is one.
fn line_start(text: &[u8], rng: &mut Rng) -> usize {
    any_of(text, b"\n", rng).map_or(0, |place| place + 1).min(text.len() - 2)
}
