//! Plans drawn at random: sizes, field orders, cases, blanks, key rings; now and then a long head or trailer, or an end of the show. And streams
//! of such plans, now and then of a part of the show.

use crate::ends::{self, faults::FAULTS};
use crate::head::Field;
use crate::limits::{before, SECTION};
use crate::parts;
use crate::plan::{blocks_of, Built, Plan, RingRecord, SizeStyle};
use crate::rng::Rng;
use crate::sodium::Signer;

const NAME_BYTES: &[u8] = b"abcdefghijklmnopqrstuvwxyzABCDEFGHIJKLMNOPQRSTUVWXYZ0123456789!#$%&'*+-.^_`|~";
const ID_BYTES: &[u8] = b"abcdefghijklmnopqrstuvwxyzABCDEFGHIJKLMNOPQRSTUVWXYZ0123456789-_";
pub(crate) const BLANKS: [&[u8]; 6] = [b"", b" ", b"  ", b"\t", b" \t", b"\t\t  "];

/// The most fields and the longest value of a random head: enough to pass paper 01's own limits, and so much less than the limit that
/// anything which is added to the head still fits.
const MOST_RANDOM_FIELDS: usize = 120;
const MOST_RANDOM_VALUE: usize = 22_000;

/// An honest plan of any shape, but for its end, which now and then is told, and then now and then wrongly.
pub fn plan(rng: &mut Rng) -> Plan {
    let plan = bare_plan(rng);
    maybe_ended(plan, rng)
}

/// The stream of such a plan, or now and then a part answer.
pub fn built(rng: &mut Rng) -> Built {
    let plan = plan(rng);
    parts::maybe_part(&plan, rng)
}

/// Such a plan with two full blocks at least and a short one at the end, so that every rule can be broken on it.
pub fn full_plan(rng: &mut Rng) -> Plan {
    let plan = bare_full_plan(rng);
    maybe_ended(plan, rng)
}

/// The end (request #101) is drawn apart, so that neither the plan nor what is drawn after it depends on it.
fn maybe_ended(mut plan: Plan, rng: &Rng) -> Plan {
    let mut rng = rng.apart();
    if rng.one_in(3) && ends::has_room(&plan) {
        let fault = rng.one_in(4).then(|| *rng.pick(&FAULTS));
        ends::put_any(&mut plan, fault, &mut rng);
    }
    plan
}

/// A plan of any shape that says nothing about its end.
pub fn bare_plan(rng: &mut Rng) -> Plan {
    let block_size = block_size(rng);
    let length = body_length(block_size, rng);
    let body = rng.bytes(length);
    plan_with(block_size, blocks_of(&body, block_size), rng)
}

/// A full plan that says nothing about its end.
pub fn bare_full_plan(rng: &mut Rng) -> Plan {
    let block_size = rng.between(2, 200);
    let length = block_size * rng.between(2, 4) + rng.between(1, block_size - 1);
    let body = rng.bytes(length);
    plan_with(block_size, blocks_of(&body, block_size), rng)
}

fn block_size(rng: &mut Rng) -> usize {
    match rng.below(40) {
        0 => 65_536,
        1 => 65_535,
        2 => rng.between(1, 65_536),
        3..=7 => rng.between(1, 5000),
        8..=20 => rng.between(1, 300),
        _ => rng.between(1, 16),
    }
}

/// Empty, one short block, exact multiples, or anything.
fn body_length(block_size: usize, rng: &mut Rng) -> usize {
    let most_blocks = if block_size > 5000 { 3 } else { 12 };
    match rng.below(8) {
        0 => 0,
        1 => rng.between(1, block_size),
        2 => block_size,
        3 | 4 => block_size * rng.between(1, most_blocks),
        _ => rng.between(1, block_size * most_blocks),
    }
}

fn plan_with(block_size: usize, blocks: Vec<Vec<u8>>, rng: &mut Rng) -> Plan {
    let signer = any_signer(rng);
    let id = any_id(rng);
    let ts = any_second(rng);
    let mut plan = Plan {
        status: rng.pick(&[b"200", b"301", b"302", b"307"]).to_vec(),
        reason: any_text(rng, 20),
        fields: own_fields(rng),
        pseudo: b"(response-status) (created)".to_vec(),
        listed: Vec::new(),
        id: Vec::new(),
        created: any_second(rng).to_string().into_bytes(),
        gaps: std::array::from_fn(|_| rng.pick(&BLANKS).to_vec()),
        block_size,
        blocks,
        sizes: any_sizes(rng),
        trailer: any_trailer(rng),
        ring: any_ring(&signer, ts, rng),
        signer,
    };
    plan.set_injection(&id, ts.to_string().as_bytes());
    add_other_fields(&mut plan, rng);
    lengthen(&mut plan, rng);
    for name in [&b"X-Ouinet-Version"[..], b"X-Ouinet-URI", b"X-Ouinet-Injection"] {
        plan.listed.push(name.to_vec());
    }
    if rng.one_in(3) {
        plan.list("X-Ouinet-BSigs");
    }
    if rng.one_in(3) {
        plan.list("Transfer-Encoding");
    }
    rng.shuffle(&mut plan.listed);
    rng.shuffle(&mut plan.fields);
    disguise(&mut plan, rng);
    plan
}

/// Names in any case, and blanks at the values' ends.
fn disguise(plan: &mut Plan, rng: &mut Rng) {
    for name in &mut plan.listed {
        change_case(name, rng);
    }
    for field in &mut plan.fields {
        change_case(&mut field.name, rng);
        if rng.one_in(2) {
            field.left = rng.pick(&BLANKS).to_vec();
            field.right = rng.pick(&BLANKS).to_vec();
        }
    }
}

/// The fields that every stream has, the signatures still empty.
fn own_fields(rng: &mut Rng) -> Vec<Field> {
    let mut chunked = b"chunked".to_vec();
    change_case(&mut chunked, rng);
    let mut uri = b"https://example.com/".to_vec();
    uri.extend(any_text(rng, 30));
    vec![
        Field::new("X-Ouinet-Version", "4"),
        Field::new("X-Ouinet-URI", trimmed(uri)),
        Field::new("X-Ouinet-Injection", ""),
        Field::new("X-Ouinet-Sig0", ""),
        Field::new("X-Ouinet-BSigs", ""),
        Field::new("Transfer-Encoding", chunked),
    ]
}

/// Up to a few more fields, some of them signed.
fn add_other_fields(plan: &mut Plan, rng: &mut Rng) {
    for number in 0..rng.below(9) {
        let mut name = match rng.below(8) {
            0 => b"Content-Type".to_vec(),
            1 => b"Trailer".to_vec(),
            2 => b"Date".to_vec(),
            _ => {
                let length = rng.between(1, 12);
                rng.letters(NAME_BYTES, length)
            }
        };
        // The number at its end makes the name a new one.
        name.extend(number.to_string().bytes());
        let value = trimmed(any_text(rng, 40));
        if rng.one_in(2) {
            plan.listed.push(name.clone());
        }
        plan.fields.push(Field::new(name, value));
    }
}

/// Now and then a head or a trailer beyond paper 01's own limits (request #108). A head keeps room for what a broken rule or repeated fields
/// add to it; `longer` has those that are full.
fn lengthen(plan: &mut Plan, rng: &mut Rng) {
    match rng.below(60) {
        0 => {
            let count = rng.between(before::FIELDS + 1, MOST_RANDOM_FIELDS);
            add_many_fields(plan, count, rng);
        }
        1 => {
            let length = rng.between(before::SECTION, MOST_RANDOM_VALUE);
            add_long_value(plan, length, rng);
        }
        2 => {
            let length = rng.between(before::SECTION, SECTION);
            plan.trailer = long_trailer(length, rng);
        }
        _ => (),
    }
}

/// Adds short fields until the plan has so many. Some of them are signed, with room in the list for a few more.
pub(crate) fn add_many_fields(plan: &mut Plan, count: usize, rng: &mut Rng) {
    while plan.fields.len() < count {
        let name = format!("More-{}", plan.fields.len());
        if plan.listed.len() < 20 && rng.one_in(4) {
            plan.list(&name);
        }
        plan.add(&name, &trimmed(any_text(rng, 40)));
    }
}

/// Puts a text of so many bytes into the head: into the reason, the URI, or a field of its own, signed or not.
pub(crate) fn add_long_value(plan: &mut Plan, length: usize, rng: &mut Rng) {
    // Blanks would not belong to a value if they stood at its ends
    let text = [b"<", &rng.letters(b"xyz ,;=\t\x80\xff", length)[..], b">"].concat();
    match rng.below(4) {
        0 => plan.reason.extend(text),
        1 => plan.field("X-Ouinet-URI").value.extend(text),
        2 => plan.add("Long", &text),
        _ => {
            plan.add("Long", &text);
            plan.list("Long");
        }
    }
}

/// A good trailer of almost so many bytes, in many lines or in one.
pub(crate) fn long_trailer(length: usize, rng: &mut Rng) -> Vec<u8> {
    let mut out = Vec::new();
    if rng.one_in(2) {
        out.extend(Field::new("Long", rng.letters(b"xyz \t\x80", length - 100)).line());
    }
    while out.len() + 100 < length {
        out.extend(any_trailer_line(rng));
    }
    out.extend(b"\r\n");
    out
}

pub fn any_signer(rng: &mut Rng) -> Signer {
    let mut seed = [0; 32];
    seed.copy_from_slice(&rng.bytes(32));
    Signer::from_seed(&seed)
}

fn any_id(rng: &mut Rng) -> Vec<u8> {
    let length = *rng.pick(&[1, 2, 16, 40, 63, 64]);
    rng.letters(ID_BYTES, length)
}

pub(crate) fn any_second(rng: &mut Rng) -> u64 {
    let digits = rng.between(0, 12) as u32;
    rng.next_u64() % 10u64.pow(digits)
}

/// Bytes that a reason or a value may hold.
pub(crate) fn any_text(rng: &mut Rng, most: usize) -> Vec<u8> {
    let length = rng.below(most + 1);
    let mut text = Vec::with_capacity(length);
    while text.len() < length {
        let byte = match rng.below(10) {
            0 => rng.byte() | 128,
            1 => *rng.pick(b" \t\",;:=()"),
            _ => rng.between(32, 126) as u8,
        };
        text.push(byte);
    }
    text
}

/// The text without blanks at its ends, which would not belong to a value.
pub(crate) fn trimmed(mut text: Vec<u8>) -> Vec<u8> {
    let blank = |byte: &u8| *byte == b' ' || *byte == b'\t';
    while text.last().is_some_and(blank) {
        text.pop();
    }
    let start = text.iter().position(|byte| !blank(byte)).unwrap_or(0);
    text.split_off(start)
}

pub(crate) fn change_case(text: &mut [u8], rng: &mut Rng) {
    match rng.below(4) {
        0 => text.make_ascii_lowercase(),
        1 => text.make_ascii_uppercase(),
        2 => {
            for byte in text {
                if rng.one_in(2) {
                    *byte ^= if byte.is_ascii_alphabetic() { 32 } else { 0 };
                }
            }
        }
        _ => (),
    }
}

fn any_sizes(rng: &mut Rng) -> SizeStyle {
    match rng.below(4) {
        0 => SizeStyle::Upper,
        1 => SizeStyle::Padded(rng.between(1, 8)),
        2 => SizeStyle::Padded(8),
        _ => SizeStyle::Lower,
    }
}

/// Absent, or a few fields; names may come twice, since a trailer's are not compared.
fn any_trailer(rng: &mut Rng) -> Vec<u8> {
    let mut out = Vec::new();
    for _ in 0..rng.below(5) {
        out.extend(any_trailer_line(rng));
    }
    out.extend(b"\r\n");
    out
}

fn any_trailer_line(rng: &mut Rng) -> Vec<u8> {
    let length = rng.between(1, 6);
    let mut field = Field::new(rng.letters(b"aAbB-1!~", length), any_text(rng, 60));
    field.left = rng.pick(&BLANKS).to_vec();
    field.line()
}

/// A ring in which the signer is trusted at that second: misfits before, anything after.
fn any_ring(signer: &Signer, ts: u64, rng: &mut Rng) -> Vec<RingRecord> {
    let own = |first, last| RingRecord { key: signer.public, first, last };
    let mut ring = Vec::new();
    let bound = *rng.pick(&[1, 1, 4, 16]);
    for _ in 0..rng.below(bound) {
        ring.push(match rng.below(4) {
            0 => own(ts + 1, u64::MAX),
            1 if ts > 0 => own(0, ts - 1),
            2 => own(ts + 1, ts),
            _ => other_record(rng),
        });
    }
    let fitting = match rng.below(4) {
        0 => own(ts, ts),
        1 => own(0, u64::MAX),
        2 => own(ts, u64::MAX),
        _ => own(ts.saturating_sub(5), ts + 5),
    };
    ring.push(fitting.clone());
    for _ in 0..rng.below(17 - ring.len()) {
        ring.push(if rng.one_in(3) { fitting.clone() } else { other_record(rng) });
    }
    ring
}

fn other_record(rng: &mut Rng) -> RingRecord {
    let mut key = [0; 32];
    key.copy_from_slice(&rng.bytes(32));
    RingRecord { key, first: 0, last: u64::MAX }
}
