//! Part answers (request #104): runs of a show's blocks, honest ones for many sizes, lengths and places, and ones in which a rule is
//! broken. First a table, most of it on the example, then random streams. What comes of an answer is said in the table, and what is
//! reckoned from it must agree.

mod edits;
mod far;
mod heads;
mod lines;
mod right;
mod whole;

use crate::case::{Answering, Case};
use crate::damage;
use crate::ends;
use crate::part_answer::PartAnswer;
use crate::plan::{Built, Kind, Plan};
use crate::random::{self, change_case, BLANKS};
use crate::repeated;
use crate::rng::Rng;
use crate::rules::{self, Rule, Spot};
use crate::table::Table;
use crate::wrong_text;
use std::ops::Range;

/// What an answer is changed by, in words.
type AnswerEdit = (&'static str, fn(&mut PartAnswer));

/// How many random cases the group has beside its table.
const RANDOM: u64 = 300;
/// The numbers of these cases begin here, where those of other groups never come.
const FROM: u64 = 1 << 36;
/// Of so many random streams one is a part answer.
const ONE_IN: usize = 6;

/// All cases of this group for a seed.
pub fn all(seed: u64) -> Vec<Case> {
    let mut rng = Rng::for_case(seed, FROM);
    let mut table = Table::new(&mut rng);
    table.all_parts_of_small_shows();
    table.statuses_and_forms();
    table.signed_fields();
    table.ends_are_not_checked();
    table.bad_trailers_of_parts();
    table.answers_to_parts();
    table.cut_off_and_in_two();
    table.far_parts();
    table.said_totals();
    table.whole_answers();
    table.ranges();
    table.numbers();
    table.large_numbers();
    table.statuses_of_shows();
    table.missing_and_doubled();
    table.orders_in_heads();
    table.where_a_hash_is_due();
    table.texts_of_hashes();
    table.both_extensions();
    table.orders_of_lines();
    table.sizes_of_parts();
    table.lies();
    table.damaged_places();
    let mut cases = table.cases;
    let rules = rules::all();
    cases.extend((1..=RANDOM).map(|number| case(&rules, &mut Rng::for_case(seed, FROM + number))));
    cases
}

/// The example in full blocks and a short one, cut to these.
fn part_of_example(blocks: Range<usize>) -> PartAnswer {
    PartAnswer::of(&ends::bare(), blocks)
}

/// `bytes 5-11/12`.
fn last_blocks() -> PartAnswer {
    part_of_example(1..3)
}

/// Which bytes these blocks are, in words.
fn shown(answer: &PartAnswer) -> String {
    let length: usize = answer.plan.blocks.iter().map(Vec::len).sum();
    format!("{length} bytes from {} in blocks of {}", answer.offset, answer.plan.block_size)
}

/// A small answer, every part of which is damaged somewhere.
pub fn small() -> Built {
    let mut show = crate::example::short_plan();
    show.block_size = 3;
    show.blocks = vec![b"abc".to_vec(), b"\r\n\r".to_vec(), b"d".to_vec()];
    show.trailer = b"A: b\r\n\r\n".to_vec();
    PartAnswer::of(&show, 1..3).build()
}

/// The number of the first line's part.
fn first_line(built: &Built) -> usize {
    built.places(Kind::Line)[0]
}

impl Table<'_> {
    /// An answer that is good, with every signature verified.
    fn closed(&mut self, label: impl Into<String>, answer: &PartAnswer) {
        let (label, built) = (label.into(), answer.build());
        assert_eq!(built.lines().last(), Some(&format!("closed {}", built.body.len())), "{label}");
        let case = Case::whole(label, &built, Answering::Verified, self.rng);
        self.cases.push(case);
    }

    /// A stream that was built from an answer and edited, refused with this number.
    fn edited(&mut self, number: u8, label: impl Into<String>, answer: &PartAnswer, mut built: Built) {
        let label = label.into();
        answer.judge(&mut built);
        assert_eq!(built.lines().last(), Some(&format!("refused {number}")), "{label}");
        let case = Case::whole(label, &built, Answering::AllYes, self.rng);
        self.cases.push(case);
    }

    /// An answer that is refused with this number.
    fn part_refused(&mut self, number: u8, label: impl Into<String>, answer: &PartAnswer) {
        self.edited(number, label, answer, answer.build_unjudged());
    }

    /// An answer with other bytes in the place of one of its parts, refused with this number.
    fn part_with(&mut self, number: u8, label: impl Into<String>, answer: &PartAnswer, part: usize, bytes: &[u8]) {
        let mut built = answer.build_unjudged();
        built.parts[part].bytes = bytes.to_vec();
        self.edited(number, label, answer, built);
    }

    /// An answer that is good but for this: so many questions are signed as they should be, and the next one is not.
    fn unsigned(&mut self, count: usize, label: impl Into<String>, answer: &PartAnswer) {
        let case = Case::wrongly_signed_at(count, label, &answer.build(), self.rng);
        self.cases.push(case);
    }
}

/// A stream of this show: now and then a part answer. That is drawn apart, and not from what an end was drawn from, so that neither the
/// show nor what is drawn after it depends on it.
pub fn maybe_part(show: &Plan, rng: &Rng) -> Built {
    let mut rng = rng.apart().apart();
    if show.blocks.is_empty() || !has_room(show) || !rng.one_in(ONE_IN) {
        return show.build();
    }
    any_part(show, &mut rng).build()
}

/// Whether the two fields can be added to the head, and what an edit or a broken rule adds.
fn has_room(show: &Plan) -> bool {
    show.fields.len() + 4 <= crate::limits::FIELDS
}

/// Some blocks of a show, in any case and with any blanks around the two fields, at any places.
fn any_part(show: &Plan, rng: &mut Rng) -> PartAnswer {
    let count = show.blocks.len();
    let first = rng.below(count);
    let mut answer = PartAnswer::of(show, first..rng.between(first + 1, count));
    let fields = answer.plan.fields.split_off(show.fields.len());
    for mut field in fields {
        change_case(&mut field.name, rng);
        (field.left, field.right) = (rng.pick(&BLANKS).to_vec(), rng.pick(&BLANKS).to_vec());
        if rng.one_in(5) {
            answer.plan.listed.push(field.name.clone());
        }
        let place = rng.below(answer.plan.fields.len() + 1);
        answer.plan.fields.insert(place, field);
    }
    answer
}

/// A random answer: now and then far into its show.
fn answer(rng: &mut Rng) -> PartAnswer {
    loop {
        let mut show = match rng.below(5) {
            0 => random::plan(rng),
            1 => repeated::plan(rng),
            2 => ends::plan(rng),
            _ => random::full_plan(rng),
        };
        if show.blocks.is_empty() || !has_room(&show) {
            continue;
        }
        if rng.one_in(5) {
            show.blocks.truncate(2);
            return far::any(show, rng);
        }
        return any_part(&show, rng);
    }
}

/// A random case.
pub fn case(rules: &[Rule], rng: &mut Rng) -> Case {
    match rng.below(12) {
        0..=2 => honest_case(rng),
        3..=6 => edits::case(rng),
        7 | 8 => rule_case(rules, rng),
        9 => wrong_text::spoilt(answer(rng).build(), rng),
        10 => cut_off_case(rng),
        _ => damage::several(&answer(rng).build(), rng),
    }
}

fn honest_case(rng: &mut Rng) -> Case {
    let answer = answer(rng);
    let built = answer.build();
    let questions = built.lines().iter().filter(|line| line.starts_with("question")).count();
    let answering = match rng.below(6) {
        0 => Answering::NoAfter(rng.below(questions)),
        1 => Answering::OutAfter(rng.below(questions)),
        _ => Answering::Verified,
    };
    Case::whole(format!("a random part answer, {}", shown(&answer)), &built, answering, rng)
}

/// A rule of paper 01 broken on a random part answer. Those about the status, the first line or the shape of a body are other ones there.
fn rule_case(rules: &[Rule], rng: &mut Rng) -> Case {
    let mut answer = loop {
        let answer = any_part(&random::full_plan(rng), rng);
        if answer.plan.blocks.len() > 1 {
            break answer;
        }
    };
    let (rule, spot) = loop {
        let rule = rng.pick(rules);
        let spot = *rng.pick(&rule.spots);
        if spot != Spot::FirstLine && rule.fits_part(&answer.plan) {
            break (rule, spot);
        }
    };
    let known = rule.break_part(spot, &mut answer, rng);
    Case::known(format!("a random part answer, {} at {spot:?}", rule.label), known, Answering::AllYes, rng)
}

fn cut_off_case(rng: &mut Rng) -> Case {
    let built = answer(rng).build();
    let whole = built.bytes();
    let head = built.parts[0].bytes.len();
    let length = rng.between(head, whole.len() - 1);
    let known = built.known(whole[..length].to_vec(), built.lines_of_beginning(length));
    Case::known("a random part answer, cut off", known, Answering::Verified, rng)
}
