//! The end of the show (request #101): a digest, a size and a signature over both, in the head or in the trailer, right ones and wrong
//! ones. First a table, most of it on the example, then random streams. What comes of an end is said in the table, and what is reckoned from
//! the plan must agree.

pub mod faults;
mod right;
mod wrong;

use crate::case::{Answering, Case};
use crate::damage;
use crate::end::{End, Written, NAMES};
use crate::example;
use crate::limits::{FIELDS, SECTION};
use crate::plan::{Built, Kind, Plan};
use crate::random::{self, change_case, BLANKS};
use crate::repeated;
use crate::rng::Rng;
use crate::table::Table;
use faults::{Edit, Fault, FAULTS};

/// How many random cases the group has beside its table.
const RANDOM: u64 = 200;
/// The numbers of these cases begin here, where those of other groups never come.
const FROM: u64 = 1 << 35;

/// Which of the three stand in the head.
pub(crate) type Mix = [bool; 3];

const IN_TRAILER: Mix = [false; 3];
const IN_HEAD: Mix = [true; 3];

pub(crate) fn mixes() -> [Mix; 8] {
    std::array::from_fn(|mix| std::array::from_fn(|number| mix >> number & 1 == 1))
}

/// All cases of this group for a seed.
pub fn all(seed: u64) -> Vec<Case> {
    let mut rng = Rng::for_case(seed, FROM);
    let mut table = Table::new(&mut rng);
    table.mixes();
    table.bodies();
    table.hashed_lengths();
    table.repeated_fields();
    table.other_forms();
    table.seconds_and_statuses();
    table.faults();
    table.wrong_seconds();
    table.digest_texts();
    table.sizes();
    table.sig1_texts();
    table.lists();
    table.listed_in_the_head();
    table.doubled_in_the_head();
    table.names_that_are_none();
    table.keys();
    table.orders();
    table.bad_trailers();
    table.wrongly_signed_ends();
    table.last_answers();
    table.fields_of_the_trailer();
    table.long_trailers();
    table.full_heads_and_ends();
    table.cut_off();
    table.cut_in_two();
    let mut cases = table.cases;
    cases.extend((1..=RANDOM).map(|number| case(&mut Rng::for_case(seed, FROM + number))));
    cases
}

/// The example, and nothing about its end.
pub(crate) fn bare() -> Plan {
    let mut plan = example::plan();
    plan.trailer = b"\r\n".to_vec();
    plan
}

/// The plan with its right end.
fn ended(mut plan: Plan, mix: Mix) -> Plan {
    let mut end = End::of(&plan);
    end.in_head = mix;
    end.put(&mut plan);
    plan
}

/// The example with an end that is changed before it is signed, and then as it is written.
fn changed(mix: Mix, said: impl Fn(&mut End), written: impl Fn(&mut Written)) -> Plan {
    let mut plan = bare();
    let mut end = End::of(&plan);
    end.in_head = mix;
    said(&mut end);
    let mut fields = end.signed(&plan);
    written(&mut fields);
    fields.put(&mut plan);
    plan
}

/// The example with another value for one of the three.
fn with_value(mix: Mix, name: &str, value: impl Fn(&[u8]) -> Vec<u8>) -> Plan {
    changed(
        mix,
        |_| (),
        |written| {
            let field = written.field(name);
            field.value = value(&field.value);
        },
    )
}

/// Where the three stand, in words.
fn shown(mix: Mix) -> String {
    let in_head: Vec<&str> = NAMES.into_iter().zip(mix).filter(|(_, in_head)| *in_head).map(|(name, _)| name).collect();
    match in_head[..] {
        [] => "all in the trailer".to_string(),
        [_, _, _] => "all in the head".to_string(),
        _ => format!("{} in the head", in_head.join(" and ")),
    }
}

impl Table<'_> {
    /// A plan whose show is complete, with every signature verified.
    fn complete(&mut self, label: impl Into<String>, plan: &Plan) {
        let built = plan.build();
        assert_eq!(built.lines().last(), Some(&format!("complete {}", built.body.len())));
        assert!(built.end_is_signed);
        let case = Case::whole(label, &built, Answering::Verified, self.rng);
        self.cases.push(case);
    }

    /// A plan whose show is refused at the trailer's end.
    fn end_refused(&mut self, number: u8, label: impl Into<String>, plan: &Plan) {
        let (label, built) = (label.into(), plan.build());
        assert_eq!(built.lines().last(), Some(&format!("refused {number}")), "{label}");
        let case = Case::whole(label, &built, Answering::AllYes, self.rng);
        self.cases.push(case);
    }

    /// The same with all in the trailer, and with all in the head.
    fn both_refused(&mut self, number: u8, label: &str, plan: impl Fn(Mix) -> Plan) {
        for mix in [IN_TRAILER, IN_HEAD] {
            self.end_refused(number, format!("{label}, {}", shown(mix)), &plan(mix));
        }
    }

    /// A plan whose end is asked about and signed over something else: the answer is no.
    fn end_unsigned(&mut self, label: impl Into<String>, plan: &Plan) {
        let built = plan.build();
        assert!(!built.end_is_signed);
        let case = Case::whole(label, &built, Answering::Verified, self.rng);
        self.cases.push(case);
    }
}

/// The number of the trailer's part.
fn trailer(built: &Built) -> usize {
    built.places(Kind::Trailer)[0]
}

/// A random case.
pub fn case(rng: &mut Rng) -> Case {
    match rng.below(10) {
        0..=2 => Case::whole("a random show and its end", &plan(rng).build(), Answering::Verified, rng),
        3..=6 => fault_case(rng),
        7 => last_answer_case(rng),
        8 => cut_off_case(rng),
        _ => damage::several(&plan(rng).build(), rng),
    }
}

/// An honest random plan with its right end, written in any way.
pub fn plan(rng: &mut Rng) -> Plan {
    let mut plan = without_end(rng);
    put_any(&mut plan, None, rng);
    plan
}

/// A random plan that says nothing about its end, with room for it.
fn without_end(rng: &mut Rng) -> Plan {
    loop {
        let plan = match rng.below(4) {
            0 => random::bare_plan(rng),
            1 => repeated::plan(rng),
            _ => random::bare_full_plan(rng),
        };
        if has_room(&plan) {
            return plan;
        }
    }
}

/// Whether the three, and one of them once more, can be added to the head or the trailer.
pub(crate) fn has_room(plan: &Plan) -> bool {
    plan.trailer.len() < SECTION / 2 && plan.fields.len() + NAMES.len() < FIELDS
}

/// Puts an end into a plan: the right one, or one with a fault; in any places, cases and blanks.
pub(crate) fn put_any(plan: &mut Plan, fault: Option<Fault>, rng: &mut Rng) {
    let mut end = End::of(plan);
    end.in_head = *rng.pick(&mixes());
    end.gaps = std::array::from_fn(|_| rng.pick(&BLANKS).to_vec());
    end.created = random::any_second(rng).to_string().into_bytes();
    if let Some((_, _, Edit::Said(edit))) = fault {
        edit(&mut end);
    }
    change_case(&mut end.list, rng);
    let mut written = end.signed(plan);
    if let Some((_, _, Edit::Written(edit))) = fault {
        edit(&mut written);
    }
    written.disguise(rng);
    written.scatter(plan, rng);
}

/// A random show with a fault in its end.
fn fault_case(rng: &mut Rng) -> Case {
    let mut plan = without_end(rng);
    let fault = *rng.pick(&FAULTS);
    put_any(&mut plan, Some(fault), rng);
    let built = plan.build();
    assert_eq!(built.lines().last(), Some(&format!("refused {}", fault.1)), "{}", fault.0);
    Case::whole(format!("a random show, {}", fault.0), &built, Answering::Verified, rng)
}

/// A random show, with a no to its last question or no answer.
fn last_answer_case(rng: &mut Rng) -> Case {
    let built = plan(rng).build();
    let questions = built.lines().iter().filter(|line| line.starts_with("question")).count();
    let answering = *rng.pick(&[Answering::NoAfter(questions - 1), Answering::OutAfter(questions - 1)]);
    Case::whole(format!("a random show and its end, answered {answering:?}"), &built, answering, rng)
}

/// A random show that ends before its trailer does.
fn cut_off_case(rng: &mut Rng) -> Case {
    let built = plan(rng).build();
    let (whole, last) = (built.bytes(), built.parts[trailer(&built)].bytes.len());
    let length = whole.len() - rng.between(1, last);
    let known = built.known(whole[..length].to_vec(), built.lines_of_beginning(length));
    Case::known("a random show, cut off in its trailer", known, Answering::Verified, rng)
}
