//! Chunk lines of part answers in which a rule is broken, and the order in which rules are tested; answers whose signatures are about
//! something else than they say; and damage where the text of a part answer is new.

use super::{first_line, last_blocks, part_of_example};
use crate::base64;
use crate::case::Case;
use crate::damage::{self, Damage, Hit};
use crate::limits::LINE;
use crate::part_answer::{hash_before, ouihash, PartAnswer, RANGE, STATUS};
use crate::plan::Kind;
use crate::rules::edits::{find, SIGNATURE_EDITS};
use crate::sodium;
use crate::table::Table;
use crate::{ends, head};
use second::event::Refusal;

/// Sizes for a line of the example: the 0 line, one that is too large, and some that may be due.
const SIZES: [&str; 7] = ["0", "1", "2", "5", "6", "10001", "ffffffff"];

/// What may stand behind a size: nothing, some signature, some hash.
fn extensions() -> [(&'static str, Vec<u8>); 3] {
    let signature = [b";ouisig=", &base64::encode(&[7; 64])[..]].concat();
    [("nothing", Vec::new()), ("a signature", signature), ("a hash", ouihash(&[7; 64]))]
}

fn line(size: &str, extension: &[u8]) -> Vec<u8> {
    [size.as_bytes(), extension, b"\r\n"].concat()
}

/// A part that starts its show, one that does not, and which extension is due on its first line.
fn both_kinds() -> [(PartAnswer, &'static str); 2] {
    [(part_of_example(0..3), "nothing"), (last_blocks(), "a hash")]
}

impl Table<'_> {
    /// All extensions but the due one, with all sizes: 8 goes before 7.
    pub(super) fn where_a_hash_is_due(&mut self) {
        for (answer, due) in both_kinds() {
            let built = answer.build_unjudged();
            let later = [&built.places(Kind::Line)[1..], &built.places(Kind::ZeroLine)].concat();
            for (name, extension) in extensions() {
                for size in SIZES {
                    let bad = line(size, &extension);
                    if name != due {
                        let label = format!("a part from {}, first line {size} with {name}", answer.offset);
                        self.part_with(8, label, &answer, first_line(&built), &bad);
                    }
                    if name != "a signature" && ["0", "2", "6"].contains(&size) {
                        for &part in &later {
                            let label = format!("a part from {}, line {part} is {size} with {name}", answer.offset);
                            self.part_with(8, label, &answer, part, &bad);
                        }
                    }
                }
            }
        }
    }

    /// Text that is almost a hash goes before 8 and 7, wherever it stands.
    pub(super) fn texts_of_hashes(&mut self) {
        let hash = base64::encode(&last_blocks().hash);
        // What stands for `;ouihash=`, and how much of it is good
        for (name, good) in [
            (";Ouihash=", 1),
            (";OUIHASH=", 1),
            (";ouiHash=", 4),
            ("; ouihash=", 1),
            (" ;ouihash=", 0),
            (";ouihash =", 8),
            (";ouihash= ", 9),
            (";ouihash=\"", 9),
            (";ouihash", 8),
            (";ouihas=", 7),
            (";ouih=", 5),
            (";ouihx=", 5),
            (";oui=", 4),
            (";ouiX=", 4),
            (";ouihsig=", 5),
            (";ouisash=", 5),
            (";ouisighash=", 7),
            (";ouihash2=", 8),
            (";hash=", 1),
            (";;ouihash=", 1),
            (",ouihash=", 0),
            ("ouihash=", 0),
            (";a=b;ouihash=", 1),
            (";", 1),
        ] {
            let text = [b"5", name.as_bytes(), &hash, b"\r\n"].concat();
            self.bad_line(&format!("{name:?} for \";ouihash=\""), &text, 1 + good);
        }
        for (label, edit, place) in SIGNATURE_EDITS {
            let text = line("5", &[b";ouihash=", &edit(&hash)[..]].concat());
            self.bad_line(&format!("a hash: {label}"), &text, 10 + place);
        }
        let good = line("5", &ouihash(&last_blocks().hash));
        let end = good.len() - 2;
        for (label, text) in
            [("a space", " \r\n"), ("a semicolon", ";\r\n"), ("a signature", ";ouisig=\r\n"), ("an LF", "\nx\r\n")]
        {
            self.bad_line(&format!("{label} behind a hash"), &[&good[..end], text.as_bytes()].concat(), end);
        }
        self.bad_line("a CR behind a hash", &[&good[..end], b"\r\r\n"].concat(), end + 1);
        for (front, place) in [(" ", 0), ("00000000", 8), ("g", 0), ("0x", 1)] {
            self.bad_line(&format!("{front:?} before a size with a hash"), &[front.as_bytes(), &good].concat(), place);
        }
    }

    /// A bad line in the place of the first one of each kind of answer, and of a later one.
    fn bad_line(&mut self, label: &str, text: &[u8], place: usize) {
        let refusal = Refusal::frame(place);
        for (answer, _) in both_kinds() {
            let built = answer.build();
            let from = answer.offset;
            self.instead(refusal, format!("a part from {from}: {label}"), &built, first_line(&built), text);
        }
        let built = last_blocks().build();
        self.instead(refusal, format!("a later line of a part: {label}"), &built, built.places(Kind::Line)[1], text);
        let whole = ends::bare().build();
        self.instead(refusal, format!("a whole answer: {label}"), &whole, first_line(&whole), text);
    }

    /// A line with both has no end within its limit.
    pub(super) fn both_extensions(&mut self) {
        let [_, (_, signature), (_, hash)] = extensions();
        for both in [[&hash[..], &signature].concat(), [&signature[..], &hash].concat(), [&hash[..], &hash].concat()] {
            self.bad_line("two extensions", &line("5", &both), LINE);
            self.bad_line("two extensions and a size of 0", &line("0", &both), LINE);
        }
    }

    /// With the extension that is due: sizes that are wrong.
    pub(super) fn orders_of_lines(&mut self) {
        for (answer, due) in both_kinds() {
            let built = answer.build_unjudged();
            let (_, first) = extensions().into_iter().find(|(name, _)| *name == due).expect("it is one of them");
            for size in ["0", "00000000", "6", "8", "d", "10001", "ffffffff"] {
                let label = format!("a part from {}, first line {size}", answer.offset);
                self.part_with(7, label, &answer, first_line(&built), &line(size, &first));
            }
            let [_, (_, signature), _] = extensions();
            for &part in &built.places(Kind::Line)[1..] {
                for size in ["0", "6", "ffffffff"] {
                    let label = format!("a part from {}, line {part} is {size}", answer.offset);
                    self.part_with(7, label, &answer, part, &line(size, &signature));
                }
            }
            for size in ["1", "5", "6"] {
                let label = format!("a part from {}, and {size} more", answer.offset);
                self.part_with(7, label, &answer, built.places(Kind::ZeroLine)[0], &line(size, &signature));
            }
        }
    }

    /// Other blocks than the range says, all of them signed: too few, too many, too short, too long.
    pub(super) fn sizes_of_parts(&mut self) {
        let ranges: [(&str, &[&str]); 5] = [
            ("bytes 5-11/12", &[" worl", "d!"]),
            ("bytes 5-9/12", &[" worl"]),
            ("bytes 5-14/15", &[" worl", "d!..."]),
            ("bytes 0-11/12", &["Hello", " worl", "d!"]),
            ("bytes 0-9/12", &["Hello", " worl"]),
        ];
        let others: [&[&str]; 16] = [
            &[],
            &["x"],
            &["xxxx"],
            &["xxxxx"],
            &["xxxxx", "x"],
            &["xxxxx", "xx"],
            &["xxxxx", "xxx"],
            &["xxxxx", "xxxxx"],
            &["xx", "xxxxx"],
            &["xxxx", "xxx"],
            &["xxxxx", "xx", "x"],
            &["xxxxx", "xxxxx", "x"],
            &["xxxxx", "xxxxx", "xx"],
            &["xxxxx", "xxxxx", "xxx"],
            &["xxxxx", "xxxxx", "xxxxx"],
            &["xxxxx", "xxxxx", "xx", "xx"],
        ];
        for (range, own) in ranges {
            for blocks in others {
                let mut answer = if range.starts_with("bytes 0") { part_of_example(0..3) } else { last_blocks() };
                answer.set_range(range);
                answer.plan.blocks = blocks.iter().map(|block| block.as_bytes().to_vec()).collect();
                let lengths = |blocks: &[&str]| blocks.iter().map(|block| block.len()).collect::<Vec<_>>();
                let label = format!("{range} with blocks of {:?}", lengths(blocks));
                if lengths(blocks) == lengths(own) {
                    self.closed(label, &answer);
                } else {
                    self.part_refused(7, label, &answer);
                }
            }
        }
    }

    /// Good answers whose signatures are about something else than they say: another hash before, another place, another status.
    pub(super) fn lies(&mut self) {
        let own = last_blocks().hash;
        let hashes: [(&str, Vec<u8>); 8] = [
            ("zeros", vec![0; 64]),
            ("the hash of nothing", sodium::sha512(b"").to_vec()),
            ("the hash of its own block", sodium::sha512(b" worl").to_vec()),
            ("the hash of the next block", hash_before(&ends::bare(), 2)),
            ("the hash of all before it and itself", sodium::sha512(b"Hello worl").to_vec()),
            ("the hash of a hash", sodium::sha512(&own).to_vec()),
            ("a hash with one bit turned over", own.iter().enumerate().map(|(i, b)| b ^ u8::from(i == 63)).collect()),
            ("the hash of other bytes", sodium::sha512(b"hello").to_vec()),
        ];
        for (label, hash) in hashes {
            let mut answer = last_blocks();
            answer.told = Some(hash);
            self.unsigned(1, format!("{label} told before a part"), &answer);
        }
        // The right hash of a text that is not the one that was hashed
        for (label, hash) in
            [("nothing", Vec::new()), ("base64", base64::encode(&own)), ("half of it", own[..32].to_vec())]
        {
            let mut answer = last_blocks();
            (answer.hash, answer.told) = (hash, Some(own.clone()));
            self.unsigned(1, format!("signed over {label} in place of the hash before"), &answer);
        }
        for (range, label) in [("bytes 10-16/17", "later"), ("bytes 4294967285-4294967291/4294967292", "far later")] {
            let mut answer = last_blocks();
            answer.set_range(range);
            self.unsigned(1, format!("a part that is said to come {label}"), &answer);
        }
        // Signed as if a part's offsets began at 0
        let mut from_0 = last_blocks();
        from_0.offset = 0;
        self.unsigned(1, "a part signed with offsets from its own start", &from_0);
        for status in ["301", "302", "307"] {
            let mut answer = last_blocks();
            answer.plan.field(STATUS).value = status.as_bytes().to_vec();
            self.unsigned(0, format!("a show of status 200 that is said to have {status}"), &answer);
        }
        let mut said = last_blocks();
        said.plan.status = b"206".to_vec();
        said.plan.field(STATUS).value = b"200".to_vec();
        self.unsigned(0, "a part answer signed with its own status", &said);
    }

    /// Damage at each place of the status, of the two fields, and of the first line but for the middle of its hash.
    pub(super) fn damaged_places(&mut self) {
        let small = [super::small()];
        let bytes = small[0].bytes();
        let line_of = |name: &str| {
            let start = find(&bytes, name.as_bytes());
            start..start + find(&bytes[start..], b"\r\n") + 2
        };
        let body = head::length(&bytes);
        let first = small[0].parts[1].bytes.len();
        let places = (9..12)
            .chain(line_of(RANGE))
            .chain(line_of(STATUS))
            .chain(body..body + 14)
            .chain((body + 14..body + first - 6).step_by(8))
            .chain(body + first - 6..body + first + 6);
        for (number, place) in places.enumerate() {
            for (turn, damage) in [Damage::Change, Damage::Delete, Damage::Insert].into_iter().enumerate() {
                // Two of the three at each place
                if (number + turn) % 3 < 2 {
                    let mut case: Case = damage::case(Hit { stream: 0, damage, place }, &small, self.rng);
                    case.label = format!("{damage:?} at {place} of a small part answer");
                    self.cases.push(case);
                }
            }
        }
    }
}
