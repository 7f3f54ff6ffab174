//! Both sides of each limit of paper 01, and of those that request #108 has moved, before and after: the longest that is good and the
//! shortest that is not.

use crate::case::Case;
use crate::example;
use crate::head::Field;
use crate::limits::{self, before, SECTION};
use crate::plan::{blocks_of, Kind, Plan, RingRecord, SizeStyle};
use crate::rng::Rng;
use crate::table::Table;
use second::event::Refusal;

/// The end comes before the section's.
const UNFINISHED: Refusal = Refusal { number: 11, at: None };

/// All cases of this kind.
pub fn all(rng: &mut Rng) -> Vec<Case> {
    let mut table = Table::new(rng);
    table.head_lengths();
    table.field_counts();
    table.list_lengths();
    table.pseudo_names();
    table.ids_and_seconds();
    table.block_sizes();
    table.line_lengths();
    table.data_ends();
    table.trailer_lengths();
    table.rings();
    table.cases
}

impl Table<'_> {
    /// A plan whose head is refused for another reason than its text.
    fn head_refused(&mut self, number: u8, label: impl Into<String>, plan: &Plan) {
        self.refused(Refusal::plain(number), label, &plan.build());
    }

    fn head_lengths(&mut self) {
        for length in around(before::SECTION).chain(around(SECTION)).chain([9000, 40_000]) {
            let unsigned = padded(length, "unsigned");
            let signed = padded(length, "signed");
            let reason = padded(length, "reason");
            for (label, plan) in [("an unsigned value", unsigned), ("a signed value", signed), ("the reason", reason)] {
                let label = format!("a head of {length} bytes through {label}");
                self.good_if(length <= SECTION, label, &plan);
            }
        }
        let built = example::plan().build();
        for length in beside(before::SECTION).chain(beside(SECTION)).chain([40_000]) {
            let refusal = if length < SECTION { UNFINISHED } else { Refusal::head(SECTION) };
            let endless = [b"HTTP/1.1 200 OK\r\nA: ", &b"a".repeat(length)[..]].concat();
            self.instead(refusal, format!("{length} bytes of head without an end"), &built, 0, &endless[..length]);
            self.instead(refusal, format!("{length} line feeds"), &built, 0, &b"\n".repeat(length));
            // An end within the limit: then the text is looked at
            let ended = [&b"x".repeat(length - 4)[..], b"\r\n\r\n"].concat();
            let place = if length > SECTION { SECTION } else { 0 };
            self.instead(Refusal::head(place), format!("{length} bytes of no head, and its end"), &built, 0, &ended);
        }
        self.instead(Refusal::head(0), "CR LF CR LF at once", &built, 0, b"\r\n\r\n");
        self.instead(UNFINISHED, "CR LF CR", &built, 0, b"\r\n\r");
        self.instead(UNFINISHED, "no byte at all", &built, 0, b"");
    }

    fn field_counts(&mut self) {
        for count in around(before::FIELDS).chain([100]).chain(around(limits::FIELDS)).chain([200]) {
            let mut plan = example::plan();
            fill(&mut plan, count);
            self.good_if(count <= limits::FIELDS, format!("{count} fields"), &plan);
        }
    }

    fn list_lengths(&mut self) {
        for count in around(limits::LISTED) {
            let mut plan = example::plan();
            fill(&mut plan, limits::FIELDS);
            let names: Vec<Vec<u8>> = plan.fields.iter().map(|field| field.name.clone()).collect();
            for name in names.into_iter().filter(|name| name.starts_with(b"Filler")) {
                if plan.listed.len() + 2 < count {
                    plan.listed.push(name);
                }
            }
            if count <= limits::LISTED {
                self.good(format!("{count} listed names"), &plan);
            } else {
                self.head_refused(4, format!("{count} listed names"), &plan);
            }
        }
    }

    /// Names are compared without case, so the pseudo names may be written in any, and are signed in
    /// lower case.
    fn pseudo_names(&mut self) {
        for pseudo in ["(Response-Status) (CREATED)", "(RESPONSE-STATUS) (created)", "(response-status) (Created)"] {
            let mut plan = example::plan();
            plan.pseudo = pseudo.as_bytes().to_vec();
            self.good(format!("a list that begins with {pseudo}"), &plan);
        }
    }

    fn ids_and_seconds(&mut self) {
        for length in [1, 63, 64, 65, 66, 200] {
            let mut plan = example::plan();
            plan.set_injection(&b"x".repeat(length), b"7");
            if length <= 64 {
                self.good(format!("an id of {length}"), &plan);
            } else {
                self.head_refused(4, format!("an id of {length}"), &plan);
            }
        }
        for digits in ["0", "1", "9", "99999999999", "100000000000", "999999999999"] {
            let mut plan = example::plan();
            plan.ring[0].last = u64::MAX;
            plan.set_injection(b"a", digits.as_bytes());
            self.good(format!("ts {digits}"), &plan);
            let mut plan = example::plan();
            plan.created = digits.as_bytes().to_vec();
            self.good(format!("created {digits}"), &plan);
        }
        for digits in ["1000000000000", "0000000000001", "00", "99999999999999999999"] {
            let mut plan = example::plan();
            plan.set_injection(b"a", digits.as_bytes());
            self.head_refused(4, format!("ts {digits}"), &plan);
            let mut plan = example::plan();
            plan.created = digits.as_bytes().to_vec();
            self.head_refused(4, format!("created {digits}"), &plan);
        }
    }

    fn block_sizes(&mut self) {
        for size in [1, 2, 127, 128, 65_535, 65_536] {
            for length in [0, 1, size - 1, size, size + 1, 2 * size] {
                let mut plan = example::plan();
                plan.block_size = size;
                plan.blocks = blocks_of(&self.rng.bytes(length), size);
                self.good(format!("block size {size}, body of {length}"), &plan);
            }
        }
        for size in [0, 65_537, 100_000] {
            let mut plan = example::plan();
            plan.block_size = size;
            self.head_refused(4, format!("block size {size}"), &plan);
        }
        // Offsets of one to six digits, in many blocks.
        let mut plan = example::plan();
        plan.block_size = 1000;
        plan.blocks = blocks_of(&self.rng.bytes(120_500), 1000);
        self.good("a hundred and twenty-one blocks", &plan);
        let mut plan = example::plan();
        plan.block_size = 1;
        plan.blocks = blocks_of(&self.rng.bytes(1200), 1);
        self.good("twelve hundred blocks of one byte", &plan);
        for digits in 1..=8 {
            let mut plan = example::plan();
            plan.sizes = SizeStyle::Padded(digits);
            self.good(format!("sizes of {digits} digits"), &plan);
        }
    }

    fn line_lengths(&mut self) {
        let built = example::plan().build();
        let lines: Vec<usize> = [built.places(Kind::Line), built.places(Kind::ZeroLine)].concat();
        for part in lines {
            for length in [127, 128, 129, 500] {
                let refusal = if length < limits::LINE { UNFINISHED } else { Refusal::frame(limits::LINE) };
                let label = format!("{length} bytes of a line without an end, part {part}");
                self.instead(refusal, label, &built, part, &b"1".repeat(length));
                let label = format!("{length} bytes of CR, part {part}");
                self.instead(refusal, label, &built, part, &b"\r".repeat(length));
            }
            for length in [126, 127, 128, 129, 130] {
                let line = [&b"1".repeat(length - 2)[..], b"\r\n"].concat();
                // Eight digits are good, unless the line's end comes too late for its text to matter
                let refusal = Refusal::frame(if length > limits::LINE { limits::LINE } else { 8 });
                self.instead(refusal, format!("a line of {length} bytes, part {part}"), &built, part, &line);
            }
            self.instead(UNFINISHED, format!("a line cut between CR and LF, part {part}"), &built, part, b"1\r");
            self.instead(Refusal::frame(0), format!("CR LF at once for a line, part {part}"), &built, part, b"\r\n");
        }
    }

    fn data_ends(&mut self) {
        let built = example::plan().build();
        for part in built.places(Kind::DataEnd) {
            self.instead(UNFINISHED, format!("one wrong byte of a data end, part {part}"), &built, part, b"x");
            self.instead(Refusal::frame(0), format!("two wrong bytes of a data end, part {part}"), &built, part, b"xy");
            self.instead(UNFINISHED, format!("half a data end, part {part}"), &built, part, b"\r");
        }
    }

    fn trailer_lengths(&mut self) {
        for blocks in [0, 3] {
            let mut plan = example::plan();
            plan.blocks.truncate(blocks);
            for length in [6, 7].into_iter().chain(around(before::SECTION)).chain([SECTION - 1, SECTION]) {
                plan.trailer = trailer_of(length);
                self.good(format!("a trailer of {length} bytes after {blocks} blocks"), &plan);
            }
            for count in [limits::FIELDS + 1, 2047, 8191] {
                plan.trailer = [&b"a:\r\n".repeat(count)[..], b"\r\n"].concat();
                self.good(format!("a trailer of {count} fields of one name after {blocks} blocks"), &plan);
            }
            plan.trailer = b"\r\n\r\n".to_vec();
            self.good(format!("CR LF twice after {blocks} blocks"), &plan);
            plan.trailer = b"\r\nA b: c\r\n\r\n".to_vec();
            self.good(format!("CR LF and then other bytes after {blocks} blocks"), &plan);
            let built = plan.build();
            let part = built.parts.len() - 1;
            for length in [SECTION + 1, SECTION + 2, 40_000] {
                let label = format!("a trailer of {length} bytes after {blocks} blocks");
                self.instead(Refusal::frame(SECTION), label, &built, part, &trailer_of(length));
            }
            for length in [1].into_iter().chain(beside(before::SECTION)).chain(beside(SECTION)) {
                let refusal = if length < SECTION { UNFINISHED } else { Refusal::frame(SECTION) };
                let label = format!("{length} bytes of trailer without an end after {blocks} blocks");
                self.instead(refusal, label, &built, part, &b"a".repeat(length));
                let label = format!("{length} CR for a trailer after {blocks} blocks");
                self.instead(refusal, label, &built, part, &b"\r".repeat(length));
            }
            self.instead(UNFINISHED, format!("no trailer after {blocks} blocks"), &built, part, b"");
            self.instead(UNFINISHED, format!("a trailer line alone after {blocks} blocks"), &built, part, b"A: b\r\n");
            let label = format!("CR LF CR of a trailer after {blocks} blocks");
            self.instead(UNFINISHED, label, &built, part, b"A: b\r\n\r");
        }
    }

    fn rings(&mut self) {
        let plan = example::plan();
        let own = |first, last| RingRecord { key: plan.signer.public, first, last };
        let other = RingRecord { key: [3; 32], first: 0, last: u64::MAX };
        let ts = 1_584_748_800;
        let mut sixteen = vec![other.clone(); 15];
        sixteen.push(own(ts, ts));
        let good = [
            ("one second", vec![own(ts, ts)]),
            ("from ts on", vec![own(ts, u64::MAX)]),
            ("up to ts", vec![own(0, ts)]),
            ("sixteen records, the last fits", sixteen),
            ("a misfit of the same key before", vec![own(0, ts - 1), own(ts + 1, u64::MAX), other.clone(), own(0, ts)]),
            ("two that fit", vec![own(0, ts), own(ts, ts)]),
        ];
        for (label, ring) in good {
            let mut plan = plan.clone();
            plan.ring = ring;
            self.good(format!("a ring: {label}"), &plan);
        }
        let bad = [
            ("a second late", vec![own(ts + 1, u64::MAX)]),
            ("a second early", vec![own(0, ts - 1)]),
            ("around, but not at it", vec![own(0, ts - 1), own(ts + 1, u64::MAX)]),
            ("sixteen others", vec![other; 16]),
            ("none", Vec::new()),
        ];
        for (label, ring) in bad {
            let mut plan = plan.clone();
            plan.ring = ring;
            self.head_refused(12, format!("a ring: {label}"), &plan);
        }
    }
}

/// A limit and the numbers beside it.
fn beside(limit: usize) -> impl Iterator<Item = usize> {
    limit - 1..=limit + 1
}

/// The same with two on each side.
fn around(limit: usize) -> impl Iterator<Item = usize> {
    limit - 2..=limit + 2
}

/// A plan whose head has so many bytes, padded at one of three places.
pub(crate) fn padded(length: usize, place: &str) -> Plan {
    let mut plan = example::plan();
    plan.fields.push(Field::new("X-Padding", ""));
    if place == "signed" {
        plan.list("X-Padding");
    }
    let lacking = length - plan.head_length();
    match place {
        "reason" => plan.reason.extend(b"r".repeat(lacking)),
        _ => plan.field("X-Padding").value = b"p".repeat(lacking),
    }
    plan
}

/// Adds fields until the plan has so many.
fn fill(plan: &mut Plan, count: usize) {
    while plan.fields.len() < count {
        let name = format!("Filler-{}", plan.fields.len());
        plan.add(&name, b"");
    }
}

/// A good trailer of so many bytes, if that is not too many.
fn trailer_of(length: usize) -> Vec<u8> {
    [&b"a"[..], b":", &b"v".repeat(length - 6), b"\r\n\r\n"].concat()
}
