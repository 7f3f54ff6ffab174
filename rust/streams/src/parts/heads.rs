//! Heads of part answers in which a rule is broken, and the order in which rules are tested.

use super::{last_blocks, AnswerEdit};
use crate::example;
use crate::head::Field;
use crate::limits::{FIELDS, SECTION};
use crate::part_answer::{PartAnswer, RANGE, STATUS};
use crate::plan::blocks_of;
use crate::rules::edits::{drop_both, CODING, INJECTION, SIG0, URI, VERSION};
use crate::table::Table;
use second::event::Refusal;

/// Texts that are no range, most of them almost that of the example's last blocks.
pub(super) const RANGES: [&str; 62] = [
    "",
    "bytes",
    "bytes ",
    "bytes 12",
    "none",
    "x",
    "bytes */12",
    "bytes */*",
    "bytes 5-11/*",
    "bytes *-11/12",
    "bytes 5-*/12",
    "bytes 0-4,5-11/12",
    "bytes 5-9,10-11/12",
    "bytes 5-9/12,10-11/12",
    "bytes 5-9/12, 10-11/12",
    "bytes 0-4/12,bytes 5-11/12",
    "bytes 0-4/12, bytes 5-11/12",
    "bytes 5-11/12, bytes 5-11/12",
    "bytes 5-11/12,",
    ",bytes 5-11/12",
    "Bytes 5-11/12",
    "BYTES 5-11/12",
    "bYtes 5-11/12",
    "byte 5-11/12",
    "bytess 5-11/12",
    "items 5-11/12",
    "5-11/12",
    "bytes5-11/12",
    "bytes  5-11/12",
    "bytes\t5-11/12",
    "bytes \t5-11/12",
    "bytes=5-11/12",
    "bytes: 5-11/12",
    "bytes 5 -11/12",
    "bytes 5- 11/12",
    "bytes 5-11 /12",
    "bytes 5-11/ 12",
    "bytes 5--11/12",
    "bytes 5-11//12",
    "bytes 5-11-12",
    "bytes 5/11/12",
    "bytes 5-11/12/12",
    "bytes 5-11",
    "bytes 5-/12",
    "bytes -11/12",
    "bytes 5-11/",
    "bytes -/",
    "bytes 5-11/12;",
    "bytes 5-11/12 x",
    "bytes 5-11/12.",
    "\"bytes 5-11/12\"",
    "bytes \"5-11/12\"",
    "bytes 5\u{2013}11/12",
    "bytes 05-11/12",
    "bytes 5-011/12",
    "bytes 5-11/012",
    "bytes 5-00000000000011/12",
    "bytes +5-11/12",
    "bytes 5-+11/12",
    "bytes 5-b/c",
    "bytes 5.0-11/12",
    "bytes 5-1 1/12",
];

/// Values that no show's status has.
pub(super) const OTHER_STATUSES: [&str; 30] = [
    "", "206", "404", "201", "204", "300", "303", "304", "308", "500", "000", "20", "2", "2000", "0200", "00200",
    "+200", "-200", "200.0", "2 00", "200 OK", "OK", "200,", "200, 200", "200;", "\"200\"", "0xc8", "C8", "3O1",
    "\u{b2}00",
];

/// A range of the example, and what its last blocks are refused with if it is theirs; 0 if they are not refused.
const NUMBERS: [(&str, u8); 30] = [
    ("5-11/12", 0),
    ("5-10/12", 4),
    ("6-11/12", 4),
    ("4-11/12", 4),
    ("5-12/12", 4),
    ("5-11/11", 4),
    ("5-11/13", 4),
    // Runs of blocks, but not of those that come
    ("5-13/14", 7),
    ("5-14/15", 7),
    ("5-9/12", 7),
    ("10-11/12", 7),
    ("5-4/12", 4),
    ("10-9/12", 4),
    ("10-4/12", 4),
    ("11-5/12", 4),
    ("12-11/12", 4),
    ("15-11/12", 4),
    ("0-0/0", 4),
    ("0-0/2", 4),
    ("0-5/12", 4),
    ("0-12/12", 4),
    ("0-4/4", 4),
    ("5-5/12", 4),
    ("5-11/0", 4),
    ("5-11/5", 4),
    ("1-1/12", 4),
    ("1-5/12", 4),
    ("2-6/7", 4),
    ("9-11/12", 4),
    // They do not begin the show, and their first line says so
    ("0-6/7", 8),
];

/// Numbers beyond the limit, or of too many digits, or that would be good if they wrapped; and the size of a block.
const LARGE: [(usize, &str); 24] = [
    (5, "0-4/4294967297"),
    (5, "5-9/4294967300"),
    (5, "5-11/4294967308"),
    (1, "4294967296-4294967296/4294967297"),
    (1, "4294967295-4294967296/4294967297"),
    (1, "4294967295-4294967296/4294967296"),
    (65_536, "4294967296-4294967296/4294967297"),
    (65_536, "4294901760-4294967296/4294967297"),
    (5, "5-9/999999999999"),
    (5, "5-9/1000000000000"),
    (1, "999999999998-999999999998/999999999999"),
    (1, "5-999999999998/999999999999"),
    (5, "5-1000000000009/1000000000010"),
    (5, "1000000000005-1000000000009/1000000000010"),
    (5, "4294967301-4294967307/4294967308"),
    (5, "4294967301-11/12"),
    (5, "5-4294967307/12"),
    (5, "18446744073709551621-11/12"),
    (5, "5-18446744073709551627/12"),
    (5, "5-11/18446744073709551628"),
    (1, "0-18446744073709551615/0"),
    (1, "0-18446744073709551615/1"),
    (5, "18446744073709551611-18446744073709551615/18446744073709551616"),
    (5, "340282366920938463463374607431768211461-11/12"),
];

/// What else may be wrong with a head, and what it is then refused with where its range is wrong too, and where that is good.
const ORDERS: [(AnswerEdit, u8, u8); 10] = [
    (("version 5", |answer| answer.plan.field(VERSION).value = b"5".to_vec()), 5, 5),
    (("version 6", |answer| answer.plan.field(VERSION).value = b"6".to_vec()), 5, 5),
    (("no version", |answer| drop_both(&mut answer.plan, VERSION)), 4, 4),
    (("no URI", |answer| drop_both(&mut answer.plan, URI)), 4, 4),
    (("no injection", |answer| drop_both(&mut answer.plan, INJECTION)), 4, 4),
    (("a length", |answer| answer.plan.add("Content-Length", b"7")), 4, 4),
    (("another coding", |answer| answer.plan.field(CODING).value = b"gzip".to_vec()), 4, 4),
    (("a list with Sig0", |answer| answer.plan.list(SIG0)), 4, 4),
    (("blocks of 65537", |answer| answer.plan.block_size = 65_537), 4, 4),
    (("an empty ring", |answer| answer.plan.ring.clear()), 4, 12),
];

/// The example's last blocks with another range.
fn ranged(value: &str) -> PartAnswer {
    let mut answer = last_blocks();
    answer.set_range(value);
    answer
}

impl Table<'_> {
    pub(super) fn ranges(&mut self) {
        for text in RANGES {
            self.part_refused(4, format!("the range {text:?}"), &ranged(text));
        }
    }

    pub(super) fn numbers(&mut self) {
        for (range, number) in NUMBERS {
            let (label, answer) = (format!("the range {range}"), ranged(&format!("bytes {range}")));
            match number {
                0 => self.closed(label, &answer),
                _ => self.part_refused(number, label, &answer),
            }
        }
        // With blocks of other sizes: which of these ranges are runs of blocks
        for size in [1, 2, 3, 4, 6, 7, 12, 65_536] {
            for range in ["0-11/12", "4-11/12", "6-11/12", "6-8/12", "7-11/12", "3-10/11", "12-12/13"] {
                let mut answer = last_blocks();
                answer.plan.block_size = size;
                answer.plan.blocks = blocks_of(b" world!", size);
                answer.set_range(format!("bytes {range}"));
                let built = answer.build();
                let label = format!("the range {range} in blocks of {size}");
                self.bytes(label, built.bytes(), &built, built.lines());
            }
        }
    }

    pub(super) fn large_numbers(&mut self) {
        for (size, range) in LARGE {
            let mut answer = ranged(&format!("bytes {range}"));
            answer.plan.block_size = size;
            self.part_refused(4, format!("the range {range} in blocks of {size}"), &answer);
        }
    }

    pub(super) fn statuses_of_shows(&mut self) {
        for status in OTHER_STATUSES {
            let mut answer = last_blocks();
            answer.plan.field(STATUS).value = status.as_bytes().to_vec();
            self.part_refused(4, format!("a show of status {status:?}"), &answer);
        }
    }

    /// Fields that are not there, that come twice, or that have almost the right name.
    pub(super) fn missing_and_doubled(&mut self) {
        for name in [RANGE, STATUS] {
            let mut answer = last_blocks();
            drop_both(&mut answer.plan, name);
            self.part_refused(4, format!("no {name}"), &answer);
            for other in [format!("{name}s"), format!("X-{name}"), name[1..].to_string(), name.replace('-', "_")] {
                let mut answer = last_blocks();
                answer.plan.field(name).name = other.as_bytes().to_vec();
                self.part_refused(4, format!("{other} for {name}"), &answer);
            }
        }
        let mut neither = last_blocks();
        drop_both(&mut neither.plan, RANGE);
        drop_both(&mut neither.plan, STATUS);
        self.part_refused(4, "neither field of a part", &neither);
        neither.plan.add("Content-Type-2", b"multipart/byteranges; boundary=x");
        neither.plan.add(STATUS, b"200");
        self.part_refused(4, "an answer of several parts", &neither);
        for (name, value) in [
            (RANGE, "bytes 5-11/12"),
            ("content-range", "bytes 5-11/12"),
            (RANGE, "bytes 0-4/12"),
            ("CONTENT-RANGE", ""),
        ] {
            for place in [0, 3, 11] {
                let mut answer = last_blocks();
                answer.plan.fields.insert(place, Field::new(name, value));
                self.part_refused(4, format!("{name}: {value} as well, at {place}"), &answer);
                answer.plan.list(RANGE);
                self.part_refused(4, format!("{name}: {value} as well, at {place}, and signed"), &answer);
            }
        }
        for name in [STATUS, "x-ouinet-http-status"] {
            let mut answer = last_blocks();
            answer.plan.add(name, b"200");
            self.doubled_part(format!("{name} as well"), &answer);
        }
    }

    /// A head of good text with a name twice that may come once, or with too many fields.
    fn doubled_part(&mut self, label: String, answer: &PartAnswer) {
        let built = answer.build_unjudged();
        let taken = built.parts[0].bytes.len().min(SECTION);
        self.refused(Refusal::head(taken), label, &built);
    }

    /// Rules broken beside a bad range, and beside a good one: what is tested first gives the number.
    pub(super) fn orders_in_heads(&mut self) {
        for ((label, edit), with_bad, with_good) in ORDERS {
            for (range, number) in [("bytes 5-10/12", with_bad), ("bytes 5-11/12", with_good)] {
                let mut answer = ranged(range);
                edit(&mut answer);
                // Asked for by the URI that the example has, even where the head has none
                let mut built = answer.build_unjudged();
                built.uri = example::plan().uri();
                self.refused(Refusal::plain(number), format!("{range} and {label}"), &built);
            }
        }
        for (range, number) in [("bytes 5-10/12", 4), ("bytes 5-11/12", 16)] {
            for has_ring in [true, false] {
                let mut answer = ranged(range);
                if !has_ring {
                    answer.plan.ring.clear();
                }
                let mut built = answer.build_unjudged();
                built.uri.push(b'x');
                self.refused(Refusal::plain(number), format!("{range} and another URI, ring {has_ring}"), &built);
            }
            self.bad_text_and_counts(range);
        }
        self.closed(format!("a part answer with {FIELDS} fields"), &with_fields("bytes 5-11/12", FIELDS));
    }

    /// All of 3 goes first.
    fn bad_text_and_counts(&mut self, range: &str) {
        self.doubled_part(format!("{range} and too many fields"), &with_fields(range, FIELDS + 1));
        let mut bad = ranged(range).build_unjudged();
        let lines = bad.parts[0].bytes.len() - 2;
        bad.parts[0].bytes = [&bad.parts[0].bytes[..lines], b"A b\r\n\r\n"].concat();
        self.refused(Refusal::head(lines + 1), format!("{range} and a bad line"), &bad);
    }
}

/// The example's last blocks with this range and so many fields.
fn with_fields(range: &str, count: usize) -> PartAnswer {
    let mut answer = ranged(range);
    while answer.plan.fields.len() < count {
        let name = format!("Field-{}", answer.plan.fields.len());
        answer.plan.add(&name, b"");
    }
    answer
}
