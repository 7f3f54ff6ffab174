//! Ends of shows that are wrong: each fault by itself, several at once, and signatures over something else.

use super::faults::{other_signer, Edit, DIGEST_TEXTS, FAULTS, LISTS, OTHER_SIZES, SIZE_TEXTS};
use super::{bare, changed, ended, mixes, shown, trailer, with_value, IN_HEAD, IN_TRAILER};
use crate::base64;
use crate::case::{Answering, Case};
use crate::end::{digest, End, DIGEST, NAMES, SIG1, SIZE};
use crate::head::{replaced, Field};
use crate::plan::{joined, Plan, RingRecord};
use crate::rules::edits::{find, TextEdit, KEY_AND_ALGORITHM_EDITS, KEY_EDITS, SIGNATURE_EDITS, SIG_EDITS, URI};
use crate::table::Table;
use second::event::Refusal;

/// A number, and the fault that is refused with it.
type Said = (u8, fn(&mut End));
/// A text that Sig1 could be over.
type Text = (&'static str, fn(&End, &Plan) -> Vec<u8>);

impl Table<'_> {
    pub(super) fn faults(&mut self) {
        for (label, number, edit) in FAULTS {
            self.both_refused(number, label, |mix| match edit {
                Edit::Said(edit) => changed(mix, edit, |_| ()),
                Edit::Written(edit) => changed(mix, |_| (), edit),
            });
        }
    }

    pub(super) fn wrong_seconds(&mut self) {
        for created in ["", "00", "01", "1000000000000", "\"1\"", "-1", "1x", "1.5", " 1", "1 "] {
            self.both_refused(13, &format!("Sig1 created at {created:?}"), |mix| {
                changed(mix, |end| end.created = created.as_bytes().to_vec(), |_| ())
            });
        }
    }

    pub(super) fn digest_texts(&mut self) {
        for (label, edit) in DIGEST_TEXTS {
            self.both_refused(13, &format!("a digest: {label}"), |mix| with_value(mix, DIGEST, edit));
        }
        let others: [(&str, &[u8]); 6] = [
            ("nothing", b""),
            ("the first block", b"Hello"),
            ("the last block", b"d!"),
            ("all but the last byte", b"Hello world"),
            ("a byte more", b"Hello world!\0"),
            ("the body in chunks", b"5\r\nHello\r\n5\r\n worl\r\n2\r\nd!\r\n0\r\n\r\n"),
        ];
        for (label, body) in others {
            self.both_refused(15, &format!("the digest of {label}"), |mix| {
                changed(mix, |end| end.digest = digest(body), |_| ())
            });
        }
    }

    pub(super) fn sizes(&mut self) {
        for size in SIZE_TEXTS {
            self.both_refused(13, &format!("a size of {size:?}"), |mix| {
                with_value(mix, SIZE, |_| size.as_bytes().to_vec())
            });
        }
        for size in OTHER_SIZES {
            self.both_refused(14, &format!("a size of {size}"), |mix| {
                changed(mix, |end| end.size = size.as_bytes().to_vec(), |_| ())
            });
        }
        let mut empty = bare();
        empty.blocks.clear();
        for (size, number) in [("1", 14), ("4294967296", 14), ("00", 13), ("", 13)] {
            let mut end = End::of(&empty);
            end.size = size.as_bytes().to_vec();
            let mut plan = empty.clone();
            end.put(&mut plan);
            self.end_refused(number, format!("an empty body with a size of {size:?}"), &plan);
        }
    }

    /// What is wrong in Sig0 is wrong in Sig1.
    pub(super) fn sig1_texts(&mut self) {
        for (number, (old, new)) in KEY_AND_ALGORITHM_EDITS.iter().chain(&SIG_EDITS).enumerate() {
            let mix = [IN_TRAILER, IN_HEAD][number % 2];
            let edit = |value: &[u8]| replaced(value, old.as_bytes(), new.as_bytes());
            self.end_refused(13, format!("Sig1 has {new:?} for {old:?}"), &with_value(mix, SIG1, edit));
        }
        for (label, edit) in KEY_EDITS {
            self.part_of_sig1(&format!("key: {label}"), b"ed25519=", 44, edit);
        }
        for (label, edit, _) in SIGNATURE_EDITS {
            self.part_of_sig1(&format!("signature: {label}"), b"signature=\"", 88, edit);
        }
        let wholes: [(&str, TextEdit); 10] = [
            ("nothing", |_| Vec::new()),
            ("x", |_| b"x".to_vec()),
            ("a comma at its end", |value| [value, b","].concat()),
            ("a parameter at its end", |value| [value, b",x=1"].concat()),
            ("a letter at its end", |value| [value, b"x"].concat()),
            ("a comma at its front", |value| [b",", value].concat()),
            ("no algorithm", |value| replaced(value, b"algorithm=\"hs2019\",", b"")),
            ("no signature", |value| value[..find(value, b",signature")].to_vec()),
            ("no created", |value| [&value[..find(value, b"created")], &value[find(value, b"headers")..]].concat()),
            ("no list", |value| [&value[..find(value, b"headers")], &value[find(value, b"signature")..]].concat()),
        ];
        for (label, edit) in wholes {
            self.both_refused(13, &format!("Sig1: {label}"), |mix| with_value(mix, SIG1, edit));
        }
    }

    /// So many characters of Sig1 behind a text are changed.
    fn part_of_sig1(&mut self, label: &str, before: &[u8], count: usize, edit: TextEdit) {
        self.both_refused(13, &format!("Sig1, {label}"), |mix| {
            with_value(mix, SIG1, |value| {
                let start = find(value, before) + before.len();
                [&value[..start], &edit(&value[start..start + count]), &value[start + count..]].concat()
            })
        });
    }

    pub(super) fn lists(&mut self) {
        for (label, edit) in LISTS {
            self.both_refused(13, &format!("a list: {label}"), |mix| {
                changed(mix, |end| end.list = edit(&end.list), |_| ())
            });
        }
    }

    /// Neither the digest nor the size may be in the head's own list; Sig1 may, though nobody can sign it then.
    pub(super) fn listed_in_the_head(&mut self) {
        for listed in [&[DIGEST][..], &[SIZE], &[DIGEST, SIZE], &[SIZE, DIGEST], &[DIGEST, SIG1]] {
            for added in [" digest x-ouinet-data-size", " x-ouinet-data-size", " digest", ""] {
                let mut plan = bare();
                listed.iter().for_each(|name| plan.list(name));
                let mut end = End::of(&plan);
                end.list = [&plan.list_text()[..], added.as_bytes()].concat();
                end.in_head = IN_HEAD;
                end.put(&mut plan);
                self.end_refused(13, format!("{listed:?} listed in the head, {added:?} added"), &plan);
            }
        }
        for mix in mixes().into_iter().filter(|mix| mix[2]) {
            let mut plan = bare();
            plan.list(SIG1);
            let plan = ended(plan, mix);
            self.end_unsigned(format!("Sig1 listed in the head, {}", shown(mix)), &plan);
            let case = Case::whole("Sig1 listed in the head, and yes", &plan.build(), Answering::AllYes, self.rng);
            self.cases.push(case);
        }
    }

    /// Of the three only the digest may come twice in a head, and is refused at the end.
    pub(super) fn doubled_in_the_head(&mut self) {
        for mix in mixes() {
            let mut plan = ended(bare(), mix);
            plan.fields.extend([Field::new("digest", "MD5=x"), Field::new("DIGEST", "MD5=x")]);
            self.end_refused(13, format!("two more digests in the head, {}", shown(mix)), &plan);
        }
        let mut plan = ended(bare(), IN_HEAD);
        let digest = plan.field(DIGEST).clone();
        plan.fields.push(digest);
        self.end_refused(13, "the digest twice in the head", &plan);
        plan.list(DIGEST);
        self.end_refused(13, "the digest twice in the head, and signed", &plan);
        for name in [SIZE, SIG1] {
            let mut plan = ended(bare(), IN_HEAD);
            let field = plan.field(name).clone();
            plan.fields.push(field);
            self.bad_head(format!("{name} twice in the head"), &plan);
        }
        for name in NAMES {
            let mut plan = ended(bare(), IN_TRAILER);
            plan.add(&name.to_lowercase(), b"x");
            self.end_refused(13, format!("another {name} in the head"), &plan);
        }
    }

    /// Sig1 by another key, in the ring or not; and which record is named.
    pub(super) fn keys(&mut self) {
        let trusted = |key| RingRecord { key, first: 0, last: u64::MAX };
        let (own, other) = (trusted(bare().signer.public), trusted(other_signer().public));
        let late = RingRecord { first: 1_584_748_801, ..own.clone() };
        for (label, ring) in [
            ("that is in the ring", vec![own.clone(), other.clone()]),
            ("that is first in the ring", vec![other.clone(), own.clone()]),
            ("that is not in the ring", vec![own.clone()]),
        ] {
            for mix in mixes() {
                let mut plan = changed(mix, |end| end.signer = other_signer(), |_| ());
                plan.ring = ring.clone();
                self.end_refused(12, format!("Sig1 by a key {label}, {}", shown(mix)), &plan);
            }
        }
        for ring in [vec![late.clone(), own.clone()], vec![other.clone(), late, own.clone(), other]] {
            let mut plan = ended(bare(), IN_TRAILER);
            plan.ring = ring;
            self.complete("an end by a key that the ring has later", &plan);
        }
        // The key of the other record, and the right signature
        let plan = with_value(IN_TRAILER, SIG1, |value| {
            let start = find(value, b"ed25519=") + 8;
            let key = base64::encode(&other_signer().public);
            [&value[..start], &key, &value[start + 44..]].concat()
        });
        self.end_refused(12, "Sig1 with another key's name", &plan);
    }

    /// Several faults at once: 13 goes first, then 14, 15 and 12; bad text in the trailer goes before all.
    pub(super) fn orders(&mut self) {
        let faults: [Said; 4] = [
            (13, |end| end.list.extend(b" date")),
            (14, |end| end.size = b"13".to_vec()),
            (15, |end| end.digest = digest(b"another body")),
            (12, |end| end.signer = other_signer()),
        ];
        for chosen in 1_u32..16 {
            let some =
                || faults.iter().enumerate().filter(move |(place, _)| chosen >> place & 1 == 1).map(|(_, fault)| fault);
            let numbers: Vec<u8> = some().map(|(number, _)| *number).collect();
            for mix in [IN_TRAILER, IN_HEAD, [true, false, true]] {
                let plan = changed(mix, |end| some().for_each(|(_, edit)| edit(end)), |_| ());
                self.end_refused(numbers[0], format!("the faults {numbers:?}, {}", shown(mix)), &plan);
                let built = plan.build();
                let good = &plan.trailer[..plan.trailer.len() - 2];
                let bad = [good, b"A b\r\n\r\n"].concat();
                let refusal = Refusal::frame(good.len() + 1);
                self.instead(refusal, format!("the faults {numbers:?} and bad text"), &built, trailer(&built), &bad);
            }
        }
        // Other faults of 13 beside a wrong size and a wrong digest
        for (label, number, edit) in FAULTS {
            if let (13, Edit::Written(edit)) = (number, edit) {
                let plan =
                    changed(IN_TRAILER, |end| (end.size, end.digest) = (b"13".to_vec(), digest(b"another body")), edit);
                self.end_refused(13, format!("{label}, a wrong size and a wrong digest"), &plan);
            }
        }
    }

    /// Text that is wrong before, between and behind good fields about the end.
    pub(super) fn bad_trailers(&mut self) {
        let built = ended(bare(), IN_TRAILER).build();
        let good = &built.parts[trailer(&built)].bytes;
        for (line, place) in
            [(&b"A b"[..], 1), (b": x", 0), (b" A: b", 0), (b"A: \x01", 3), (b"digest", 6), (b"A: x\r", 5)]
        {
            for start in [0, find(good, b"X-Ouinet-Data"), find(good, b"X-Ouinet-Sig1"), good.len() - 2] {
                let bad = [&good[..start], line, b"\r\n", &good[start..]].concat();
                let label = format!("the line \"{}\" at {start} of a trailer", line.escape_ascii());
                self.instead(Refusal::frame(start + place), label, &built, trailer(&built), &bad);
            }
        }
    }

    /// Sig1 over another text than it should cover.
    pub(super) fn wrongly_signed_ends(&mut self) {
        let texts: [Text; 9] = [
            ("nothing", |_, _| Vec::new()),
            ("the head's text", |end, plan| {
                let message = end.message(plan, &joined);
                message[..find(&message, b"\ndigest: ")].to_vec()
            }),
            ("the text without its size", |end, plan| {
                let message = end.message(plan, &joined);
                message[..find(&message, b"\nx-ouinet-data-size: ")].to_vec()
            }),
            ("the text and a line feed", |end, plan| [&end.message(plan, &joined)[..], b"\n"].concat()),
            ("the text with CR LF", |end, plan| {
                let message = end.message(plan, &joined);
                message.split(|&byte| byte == b'\n').collect::<Vec<_>>().join(&b"\r\n"[..])
            }),
            ("the names as they are written", |end, plan| {
                replaced(&end.message(plan, &joined), b"digest: ", b"Digest: ")
            }),
            ("another size", |end, plan| replaced(&end.message(plan, &joined), b"-size: 12", b"-size: 13")),
            ("another status", |end, plan| replaced(&end.message(plan, &joined), b": 200", b": 301")),
            ("another second", |end, plan| replaced(&end.message(plan, &joined), b"(created): 1", b"(created): 2")),
        ];
        for (label, text) in texts {
            for mix in [IN_TRAILER, IN_HEAD] {
                let mut plan = bare();
                let mut end = End::of(&plan);
                end.in_head = mix;
                end.signed_over(&text(&end, &plan)).put(&mut plan);
                self.end_unsigned(format!("Sig1 over {label}, {}", shown(mix)), &plan);
            }
        }
        // The head is signed with another URI, and Sig1 was made before
        let mut plan = ended(bare(), IN_TRAILER);
        plan.field(URI).value = b"https://example.com/other".to_vec();
        self.end_unsigned("another URI than Sig1 covers", &plan);
    }
}
