//! Ends of shows that are right, in all forms and at all limits, however the stream is cut and answered.

use super::{bare, changed, ended, mixes, shown, trailer, IN_HEAD, IN_TRAILER};
use crate::case::{Answering, Case};
use crate::cuts;
use crate::end::End;
use crate::limits::{before, FIELDS, LISTED, SECTION};
use crate::plan::{blocks_of, SizeStyle};
use crate::random::BLANKS;
use crate::rules::edits::swapped_case;
use crate::table::Table;
use second::event::Refusal;

impl Table<'_> {
    pub(super) fn mixes(&mut self) {
        for mix in mixes() {
            self.complete(format!("an end, {}", shown(mix)), &ended(bare(), mix));
            let mut plan = ended(bare(), mix);
            plan.fields.reverse();
            plan.trailer.splice(0..0, *b"A: b\r\n");
            self.complete(format!("an end, {}, among other fields", shown(mix)), &plan);
            let mut empty = bare();
            empty.blocks.clear();
            self.complete(format!("an empty body's end, {}", shown(mix)), &ended(empty, mix));
        }
    }

    /// Bodies of all lengths around the size of a block.
    pub(super) fn bodies(&mut self) {
        for (number, size) in [1, 5, 63, 64, 65, 1000, 65_536].into_iter().enumerate() {
            let lengths = [0, 1, size - 1, size, size + 1, 3 * size - 1, 4 * size];
            for (turn, length) in lengths.into_iter().enumerate() {
                let mut plan = bare();
                plan.block_size = size;
                plan.blocks = blocks_of(&self.rng.bytes(length), size);
                plan.sizes = SizeStyle::Padded(1 + turn);
                let mix = mixes()[(number + turn) % 8];
                self.complete(format!("blocks of {size}, a body of {length}, {}", shown(mix)), &ended(plan, mix));
            }
        }
    }

    /// Bodies around the units of 64 bytes that are hashed, in blocks that do not fit them.
    pub(super) fn hashed_lengths(&mut self) {
        for (number, length) in
            [54, 55, 56, 57, 62, 63, 64, 65, 118, 119, 120, 121, 127, 128, 129, 1023].into_iter().enumerate()
        {
            for size in [7, 61] {
                let mut plan = bare();
                plan.block_size = size;
                plan.blocks = blocks_of(&self.rng.bytes(length), size);
                self.complete(
                    format!("a hashed body of {length} in blocks of {size}"),
                    &ended(plan, mixes()[number % 8]),
                );
            }
        }
    }

    /// Signed fields of several lines: Sig1 covers them joined, as Sig0 does.
    pub(super) fn repeated_fields(&mut self) {
        for mix in mixes() {
            let mut plan = bare();
            for value in ["a", "", "b, c"] {
                plan.add("Vary", value.as_bytes());
                plan.add("via", value.as_bytes());
            }
            plan.list("VARY");
            let mut first_alone = plan.clone();
            self.complete(format!("a repeated field, {}", shown(mix)), &ended(plan, mix));
            let mut end = End::of(&first_alone);
            end.in_head = mix;
            let message = end.message(&first_alone, &|values| values[0].to_vec());
            end.signed_over(&message).put(&mut first_alone);
            self.end_unsigned(format!("a repeated field, its first line signed alone, {}", shown(mix)), &first_alone);
        }
    }

    /// Names in other cases, blanks around values and after commas.
    pub(super) fn other_forms(&mut self) {
        for mix in mixes() {
            let plan = changed(
                mix,
                |end| end.list = swapped_case(&end.list),
                |written| {
                    let fields = written.head.iter_mut().chain(&mut written.trailer);
                    fields.for_each(|field| field.name = swapped_case(&field.name));
                },
            );
            self.complete(format!("names in the other case, {}", shown(mix)), &plan);
        }
        for (number, blanks) in BLANKS.into_iter().enumerate() {
            for mix in [mixes()[number], mixes()[7 - number]] {
                let other = BLANKS[BLANKS.len() - 1 - number];
                let plan = changed(
                    mix,
                    |end| end.gaps = [blanks, other, blanks, other].map(<[u8]>::to_vec),
                    |written| {
                        for field in written.head.iter_mut().chain(&mut written.trailer) {
                            (field.left, field.right) = (blanks.to_vec(), other.to_vec());
                        }
                    },
                );
                self.complete(format!("blanks \"{}\", {}", blanks.escape_ascii(), shown(mix)), &plan);
            }
        }
        for list in [<[u8]>::to_ascii_uppercase, <[u8]>::to_ascii_lowercase] {
            let plan = changed(IN_TRAILER, |end| end.list = list(&end.list), |_| ());
            self.complete("a list in one case", &plan);
        }
    }

    /// Sig1 has its own second, and the status is the head's.
    pub(super) fn seconds_and_statuses(&mut self) {
        for (created, mix) in ["0", "1", "1584748799", "1584748801", "999999999999"].into_iter().zip(mixes()) {
            let plan = changed(mix, |end| end.created = created.as_bytes().to_vec(), |_| ());
            self.complete(format!("Sig1 created at {created}"), &plan);
        }
        for status in ["200", "301", "302", "307"] {
            let mut plan = bare();
            plan.status = status.as_bytes().to_vec();
            self.complete(format!("an end with status {status}"), &ended(plan, IN_TRAILER));
        }
    }

    /// Names that are almost those of the three.
    pub(super) fn names_that_are_none(&mut self) {
        for name in [
            "Digest2",
            "Diges",
            "X-Digest",
            "Content-Digest",
            "X-Ouinet-Digest",
            "X-Ouinet-Data-Siz",
            "X-Ouinet-Data-Size2",
            "Data-Size",
            "X-Ouinet-Sig",
            "X-Ouinet-Sig11",
            "X-Ouinet-Sig2",
            "Sig1",
        ] {
            let mut plan = bare();
            plan.trailer = [name.as_bytes(), b": x\r\n\r\n"].concat();
            self.good(format!("{name} in the trailer"), &plan);
            let mut plan = bare();
            plan.add(name, b"x");
            self.good(format!("{name} in the head"), &plan);
            let mut plan = ended(bare(), IN_TRAILER);
            plan.add(name, b"x");
            plan.trailer.splice(0..0, [name.as_bytes(), b": x\r\n"].concat());
            self.complete(format!("{name} beside an end"), &plan);
        }
    }

    /// No to the last question, or no answer.
    pub(super) fn last_answers(&mut self) {
        for mix in mixes() {
            let built = ended(bare(), mix).build();
            for answering in
                [Answering::NoAfter(4), Answering::OutAfter(4), Answering::NoAfter(3), Answering::OutAfter(5)]
            {
                let label = format!("an end, {}, answered {answering:?}", shown(mix));
                let case = Case::whole(label, &built, answering, self.rng);
                self.cases.push(case);
            }
            let more = [&built.bytes()[..], b"0\r\n\r\n"].concat();
            self.bytes(format!("an end, {}, and more behind it", shown(mix)), more, &built, built.lines());
        }
    }

    /// Other fields of a trailer are not read, be they signed in the head or not.
    pub(super) fn fields_of_the_trailer(&mut self) {
        for line in [
            "X-Ouinet-URI: x",
            "X-Ouinet-Version: 5",
            "x-ouinet-injection: id=b,ts=2",
            "Date: now",
            "X-Ouinet-BSigs: x",
            "X-Ouinet-Sig0: x",
            "Content-Length: 5",
            "Transfer-Encoding: chunked",
            "A:",
        ] {
            for mix in [IN_TRAILER, IN_HEAD] {
                let mut plan = ended(bare(), mix);
                plan.trailer.splice(0..0, format!("{line}\r\n{line}\r\n").into_bytes());
                self.complete(format!("{line:?} twice in the trailer, {}", shown(mix)), &plan);
            }
        }
    }

    /// Trailers of hundreds of fields, up to the limit and beyond it, with the three at their front, in the middle or at their end.
    pub(super) fn long_trailers(&mut self) {
        for length in [before::SECTION, 20_000, SECTION - 1, SECTION, SECTION + 1] {
            let own = ended(bare(), IN_TRAILER).trailer;
            let lines = &own[..own.len() - 2];
            let room = length - own.len();
            for (label, front) in [("front", 0), ("middle", room / 2), ("end", room)] {
                let mut plan = bare();
                plan.trailer = [&filler(front)[..], lines, &filler(room - front), b"\r\n"].concat();
                assert_eq!(plan.trailer.len(), length);
                let label = format!("a trailer of {length} bytes with the end at its {label}");
                if length <= SECTION {
                    self.complete(label, &plan);
                } else {
                    let built = plan.build();
                    self.instead(Refusal::frame(SECTION), label, &built, trailer(&built), &plan.trailer);
                }
            }
        }
    }

    /// Heads with as many fields, listed names and bytes as can be.
    pub(super) fn full_heads_and_ends(&mut self) {
        for mix in mixes() {
            let count = mix.iter().filter(|&&in_head| in_head).count();
            let mut plan = bare();
            for number in plan.fields.len()..FIELDS - count {
                let name = format!("Field-{number}");
                plan.add(&name, format!("value {number}").as_bytes());
                if plan.listed.len() + 2 < LISTED {
                    plan.list(&name);
                }
            }
            assert_eq!(plan.listed.len() + 2, LISTED);
            let full = ended(plan.clone(), mix);
            assert_eq!(full.fields.len(), FIELDS);
            self.complete(format!("a head of {FIELDS} fields, {LISTED} of them listed, {}", shown(mix)), &full);
            let mut end = End::of(&plan);
            (end.in_head, end.list) = (mix, [&end.list[..], b" Field-99"].concat());
            let mut more = plan.clone();
            end.put(&mut more);
            self.end_refused(13, format!("a list of {} names, {}", LISTED + 3, shown(mix)), &more);
            let mut over = plan;
            over.add("One-More", b"");
            if count > 0 {
                self.bad_head(format!("a field too many, {}", shown(mix)), &ended(over, mix));
            }
            for length in [SECTION - 1, SECTION, SECTION + 1] {
                let mut plan = bare();
                plan.add("Fill", b"");
                plan.list("fill");
                let lacking = length - ended(plan.clone(), mix).head_length();
                plan.field("Fill").value = b"f".repeat(lacking);
                let plan = ended(plan, mix);
                let label = format!("a head of {length} bytes, {}", shown(mix));
                if length <= SECTION {
                    self.complete(label, &plan);
                } else {
                    self.bad_head(label, &plan);
                }
            }
        }
    }

    /// Streams that end inside their trailers, or right before them.
    pub(super) fn cut_off(&mut self) {
        for (mix, step) in [(IN_HEAD, 1), ([true, false, true], 1), ([true, true, false], 9), (IN_TRAILER, 17)] {
            let built = ended(bare(), mix).build();
            let whole = built.bytes().len();
            let start = whole - built.parts[trailer(&built)].bytes.len();
            for length in (start - 3..start + 3).chain((start + 3..whole - 5).step_by(step)).chain(whole - 5..whole) {
                let known = built.known(built.bytes()[..length].to_vec(), built.lines_of_beginning(length));
                let label = format!("an end, {}, cut off {} bytes before its own", shown(mix), whole - length);
                let case = Case::known(label, known, Answering::AllYes, self.rng);
                self.cases.push(case);
            }
        }
    }

    /// Whole streams in two pieces, one of which ends inside the trailer or right before it.
    pub(super) fn cut_in_two(&mut self) {
        for (mix, step) in [(IN_HEAD, 1), ([true, false, true], 1), (IN_TRAILER, 13)] {
            let built = ended(bare(), mix).build();
            let whole = built.bytes().len();
            let start = whole - built.parts[trailer(&built)].bytes.len();
            for length in (start - 2..start + 2).chain((start + 2..whole - 4).step_by(step)).chain(whole - 4..whole) {
                let label = format!("an end, {}, in two pieces, the second of {} bytes", shown(mix), whole - length);
                let mut case = Case::whole(label, &built, Answering::Verified, self.rng);
                case.cuts = Some(cuts::text(&[length, whole - length]));
                self.cases.push(case);
            }
        }
    }
}

/// Field lines of so many bytes in all, most of them short; none if that is 0.
fn filler(length: usize) -> Vec<u8> {
    if length == 0 {
        return Vec::new();
    }
    let mut lines = b"a: b\r\n".repeat(length / 6 - 1);
    lines.extend([b"a:", &b" ".repeat(length - lines.len() - 4)[..], b"\r\n"].concat());
    lines
}
