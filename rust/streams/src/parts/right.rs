//! Part answers that are right, of many shows and in all forms, however they are cut and answered.

use super::{last_blocks, part_of_example, shown, AnswerEdit};
use crate::case::{Answering, Case};
use crate::cuts;
use crate::end::{End, Written};
use crate::ends::faults::{Edit, FAULTS};
use crate::ends::{self, mixes};
use crate::head::Field;
use crate::part_answer::{PartAnswer, RANGE, STATUS, STATUSES};
use crate::plan::{blocks_of, Plan, SizeStyle};
use crate::random::BLANKS;
use crate::rules::edits::{swapped_case, ODD_LINES};
use crate::table::Table;
use second::event::Refusal;

impl Table<'_> {
    /// Every run of blocks of shows in blocks of this size and of these lengths.
    pub(super) fn all_parts_of_small_shows(&mut self) {
        let shows: [(usize, &[usize]); 6] = [
            (1, &[1, 2, 3, 4]),
            (2, &[1, 2, 3, 5]),
            (5, &[1, 4, 5, 6, 10, 11, 12, 15, 16]),
            (64, &[63, 64, 65, 129]),
            (1000, &[2001]),
            (65_536, &[65_536, 65_537, 140_000]),
        ];
        for (size, lengths) in shows {
            for &length in lengths {
                let mut show = ends::bare();
                show.block_size = size;
                show.blocks = blocks_of(&self.rng.bytes(length), size);
                show.sizes = *self.rng.pick(&[SizeStyle::Lower, SizeStyle::Upper, SizeStyle::Padded(8)]);
                self.all_parts(&show, length);
            }
        }
    }

    fn all_parts(&mut self, show: &Plan, length: usize) {
        let count = show.blocks.len();
        for first in 0..count {
            for behind in first + 1..=count {
                let answer = PartAnswer::of(show, first..behind);
                self.closed(format!("{} of a show of {length}", shown(&answer)), &answer);
            }
        }
    }

    /// The status that was signed, and the two fields written in any way and at any place.
    pub(super) fn statuses_and_forms(&mut self) {
        for status in STATUSES {
            for blocks in [0..2, 1..3] {
                let mut show = ends::bare();
                show.status = status.as_bytes().to_vec();
                let answer = PartAnswer::of(&show, blocks);
                self.closed(format!("a part of a show of status {status}, {}", shown(&answer)), &answer);
            }
        }
        for (number, blanks) in BLANKS.into_iter().enumerate() {
            let mut answer = last_blocks();
            for name in [RANGE, STATUS] {
                let field = answer.plan.field(name);
                (field.left, field.right) = (blanks.to_vec(), BLANKS[BLANKS.len() - 1 - number].to_vec());
            }
            self.closed(format!("blanks \"{}\" around the fields of a part", blanks.escape_ascii()), &answer);
        }
        let forms: [AnswerEdit; 6] = [
            ("its fields in the other order", |answer| answer.plan.fields.reverse()),
            ("its own fields first", |answer| answer.plan.fields.rotate_right(2)),
            ("its names in the other case", |answer| {
                [RANGE, STATUS].iter().for_each(|name| answer.plan.field(name).name = swapped_case(name.as_bytes()));
            }),
            ("no reason", |answer| answer.plan.reason.clear()),
            ("the reason of a whole answer", |answer| answer.plan.reason = b"200 OK".to_vec()),
            ("a type of several parts", |answer| {
                answer.plan.field("Content-Type").value = b"multipart/byteranges; boundary=x".to_vec();
            }),
        ];
        for (label, edit) in forms {
            let mut answer = last_blocks();
            edit(&mut answer);
            self.closed(format!("a part answer with {label}"), &answer);
        }
    }

    /// Either of the two fields, or both, in the signed list.
    pub(super) fn signed_fields(&mut self) {
        for names in [&[RANGE][..], &[STATUS], &[RANGE, STATUS], &[STATUS, RANGE]] {
            for blocks in [0..3, 1..2, 2..3] {
                let mut answer = part_of_example(blocks);
                names.iter().for_each(|name| answer.plan.list(name));
                self.closed(format!("{names:?} signed, {}", shown(&answer)), &answer);
            }
        }
    }

    /// What is said about the end of the show, right or wrong, in the head or the trailer, makes no difference.
    pub(super) fn ends_are_not_checked(&mut self) {
        for (number, mix) in mixes().into_iter().enumerate() {
            for blocks in [0..3, 1..3, 1..2] {
                let mut show = ends::bare();
                let mut end = End::of(&show);
                end.in_head = mix;
                end.put(&mut show);
                let answer = PartAnswer::of(&show, blocks);
                self.closed(format!("the end of the show in mix {number}, {}", shown(&answer)), &answer);
            }
        }
        for (number, (label, _, edit)) in FAULTS.into_iter().enumerate() {
            let mut show = ends::bare();
            let mut end = End::of(&show);
            end.in_head = mixes()[number % 8];
            if let Edit::Said(edit) = edit {
                edit(&mut end);
            }
            let mut written = end.signed(&show);
            if let Edit::Written(edit) = edit {
                edit(&mut written);
            }
            written.put(&mut show);
            let blocks = [0..3, 1..3, 0..1][number % 3].clone();
            let answer = PartAnswer::of(&show, blocks);
            self.closed(format!("an end with a fault, {label}, {}", shown(&answer)), &answer);
        }
        let lines = [Field::new("Digest", "x"), Field::new("digest", "x"), Field::new("X-Ouinet-Sig1", "x")];
        let mut show = ends::bare();
        Written { head: lines.to_vec(), trailer: [lines.clone(), lines].concat() }.put(&mut show);
        self.closed("an end that is said again and again", &PartAnswer::of(&show, 1..3));
    }

    /// The text of a trailer is judged all the same.
    pub(super) fn bad_trailers_of_parts(&mut self) {
        let mut show = ends::bare();
        End::of(&show).put(&mut show);
        let built = PartAnswer::of(&show, 1..3).build();
        let good = &show.trailer[..show.trailer.len() - 2];
        for (line, place) in ODD_LINES.into_iter().step_by(5) {
            let bad = [good, line, b"\r\n\r\n"].concat();
            let label = format!("the line \"{}\" in the trailer of a part", line.escape_ascii());
            self.instead(Refusal::frame(good.len() + place), label, &built, built.parts.len() - 1, &bad);
        }
    }

    /// No to each question of a part, or no answer; and bytes behind its end.
    pub(super) fn answers_to_parts(&mut self) {
        for blocks in [0..3, 1..3, 2..3] {
            let answer = part_of_example(blocks);
            let built = answer.build();
            for count in 0..=answer.plan.blocks.len() {
                for answering in [Answering::NoAfter(count), Answering::OutAfter(count)] {
                    let label = format!("{}, answered {answering:?}", shown(&answer));
                    let case = Case::whole(label, &built, answering, self.rng);
                    self.cases.push(case);
                }
            }
            let more = [&built.bytes()[..], b"0\r\n\r\n"].concat();
            self.bytes(format!("{}, and more behind it", shown(&answer)), more, &built, built.lines());
        }
    }

    /// The stream ends, or is cut, around and inside the first line.
    pub(super) fn cut_off_and_in_two(&mut self) {
        let built = last_blocks().build();
        let (whole, head) = (built.bytes(), built.parts[0].bytes.len());
        let line = built.parts[1].bytes.len();
        let inside = (head + 12..head + line - 3).step_by(9);
        let places = (head - 2..head + 12).chain(inside).chain(head + line - 3..head + line + 10);
        for length in places {
            let known = built.known(whole[..length].to_vec(), built.lines_of_beginning(length));
            let label = format!("a part answer cut off {} bytes behind its head", length as isize - head as isize);
            let case = Case::known(label, known, Answering::AllYes, self.rng);
            self.cases.push(case);
            let label = format!("a part answer in two pieces, the second of {} bytes", whole.len() - length);
            let mut case = Case::whole(label, &built, Answering::Verified, self.rng);
            case.cuts = Some(cuts::text(&[length, whole.len() - length]));
            self.cases.push(case);
        }
    }
}
