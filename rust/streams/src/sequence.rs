//! The cases of a seed, in order: first the fixed tables, then files of URIs, the example's part, repeated fields, asked URIs, longer heads, ends
//! of shows and part answers, then damaged text, then damage at every place (in an order that the seed shuffles) and random streams by turns.

use crate::asked;
use crate::bounds;
use crate::case::{Answering, Case};
use crate::damage::{self, Hit};
use crate::ends;
use crate::example;
use crate::inputs;
use crate::longer;
use crate::parts;
use crate::plan::Built;
use crate::random;
use crate::repeated;
use crate::rng::Rng;
use crate::rules::{self, Rule};
use crate::wrong_text;
use std::collections::VecDeque;

/// The number of the cases of the example's part, where those of other groups never come.
const PART_OF_EXAMPLE: u64 = 1 << 37;

/// The groups that cases come from.
#[derive(Clone, Copy, PartialEq, Eq, Debug)]
pub enum Group {
    Example,
    Rules,
    Bounds,
    Inputs,
    Repeated,
    Asked,
    Longer,
    Ends,
    Parts,
    Text,
    Damage,
    Mixed,
}

pub const GROUPS: [(&str, Group); 12] = [
    ("example", Group::Example),
    ("rules", Group::Rules),
    ("bounds", Group::Bounds),
    ("inputs", Group::Inputs),
    ("repeated", Group::Repeated),
    ("asked", Group::Asked),
    ("longer", Group::Longer),
    ("ends", Group::Ends),
    ("parts", Group::Parts),
    ("text", Group::Text),
    ("damage", Group::Damage),
    ("mixed", Group::Mixed),
];

/// Reads a list of group names with commas between.
pub fn parse_groups(text: &str) -> Result<Vec<Group>, String> {
    text.split(',')
        .map(|word| {
            let found = GROUPS.iter().find(|(name, _)| *name == word);
            let names: Vec<&str> = GROUPS.iter().map(|(name, _)| *name).collect();
            found.map(|(_, group)| *group).ok_or_else(|| format!("no group {word:?}; there are {}", names.join(", ")))
        })
        .collect()
}

/// All groups.
pub fn all_groups() -> Vec<Group> {
    GROUPS.iter().map(|(_, group)| *group).collect()
}

/// An iterator over the cases of a seed. It ends only where `mixed` is not among the groups.
pub struct Sequence {
    seed: u64,
    number: u64,
    mixed: bool,
    fixed: VecDeque<Case>,
    /// Files of a URI, the example's part, repeated fields, asked URIs, longer heads, ends and parts: they do not count, so that no other case
    /// depends on them.
    apart: VecDeque<Case>,
    /// How many cases of damaged text are left.
    texts: usize,
    rules: Vec<Rule>,
    small: Vec<Built>,
    hits: Vec<Hit>,
}

impl Sequence {
    pub fn new(seed: u64, groups: &[Group]) -> Self {
        let mut rng = Rng::new(seed);
        let rules = rules::all();
        let mut fixed = VecDeque::new();
        let has = |group| groups.contains(&group);
        if has(Group::Example) {
            fixed.extend(ways_of("the example", &example::plan().build(), &mut rng));
        }
        if has(Group::Rules) {
            fixed.extend(rule_cases(&rules, &mut rng));
        }
        if has(Group::Bounds) {
            fixed.extend(bounds::all(&mut rng));
        }
        if has(Group::Inputs) {
            fixed.extend(inputs::all());
        }
        let small = damage::streams();
        let mut hits = if has(Group::Damage) { damage::every_place(&small) } else { Vec::new() };
        rng.shuffle(&mut hits);
        let mut apart = VecDeque::new();
        if has(Group::Inputs) {
            apart.extend(inputs::about_uri());
        }
        if has(Group::Example) {
            apart.extend(ways_of(
                "the example's part",
                &example::part().build(),
                &mut Rng::for_case(seed, PART_OF_EXAMPLE),
            ));
        }
        if has(Group::Repeated) {
            apart.extend(repeated::all(seed));
        }
        if has(Group::Asked) {
            apart.extend(asked::all(seed));
        }
        if has(Group::Longer) {
            apart.extend(longer::all(seed));
        }
        if has(Group::Ends) {
            apart.extend(ends::all(seed));
        }
        if has(Group::Parts) {
            apart.extend(parts::all(seed));
        }
        let texts = if has(Group::Text) { wrong_text::COUNT } else { 0 };
        Sequence { seed, number: 0, mixed: has(Group::Mixed), fixed, apart, texts, rules, small, hits }
    }

    /// How many cases the fixed tables have left.
    pub fn fixed_left(&self) -> usize {
        self.fixed.len()
    }

    /// How many places of damage are left.
    pub fn damage_left(&self) -> usize {
        self.hits.len()
    }
}

impl Iterator for Sequence {
    type Item = Case;

    fn next(&mut self) -> Option<Case> {
        if self.fixed.is_empty() && !self.apart.is_empty() {
            return self.apart.pop_front();
        }
        self.number += 1;
        if let Some(case) = self.fixed.pop_front() {
            return Some(case);
        }
        let mut rng = Rng::for_case(self.seed, self.number);
        if self.texts > 0 {
            self.texts -= 1;
            return Some(wrong_text::case(&mut rng));
        }
        let turn_of_damage = !self.mixed || self.number.is_multiple_of(2);
        if turn_of_damage {
            if let Some(hit) = self.hits.pop() {
                return Some(damage::case(hit, &self.small, &mut rng));
            }
        }
        self.mixed.then(|| maybe_another_uri(mixed_case(&self.rules, &mut rng), &mut rng))
    }
}

/// A stream in several ways of cutting and answering.
fn ways_of(name: &str, built: &Built, rng: &mut Rng) -> Vec<Case> {
    let mut cases = vec![Case::whole(name, built, Answering::AllYes, rng)];
    cases[0].cuts = None;
    for cut in [1, 2, 3, 5, 7, 64, 1000] {
        let mut case = Case::whole(format!("{name} in pieces of {cut}"), built, Answering::Verified, rng);
        case.cuts = Some(format!("{cut}\n").into_bytes());
        cases.push(case);
    }
    for count in 0..4 {
        cases.push(Case::whole(format!("{name}, no to question {count}"), built, Answering::NoAfter(count), rng));
        cases.push(Case::whole(format!("{name}, {count} answers"), built, Answering::OutAfter(count), rng));
    }
    for _ in 0..8 {
        cases.push(Case::whole(format!("{name} in some pieces"), built, Answering::Verified, rng));
    }
    cases
}

/// Each rule of the table broken once at each of its spots, on the example.
fn rule_cases(rules: &[Rule], rng: &mut Rng) -> Vec<Case> {
    let plan = example::plan();
    let mut cases = Vec::new();
    for rule in rules {
        for &spot in &rule.spots {
            cases.push(rule.case(spot, &plan, Answering::AllYes, rng));
        }
    }
    cases
}

/// Now and then the case is asked for by another URI. That is drawn last, so that its stream does not depend on it.
fn maybe_another_uri(case: Case, rng: &mut Rng) -> Case {
    if !rng.one_in(12) {
        return case;
    }
    let uri = asked::other_uri(&case.uri, rng);
    case.asked_by(uri)
}

/// A random case of any kind.
fn mixed_case(rules: &[Rule], rng: &mut Rng) -> Case {
    match rng.below(10) {
        0..=3 => honest_case(rng),
        4..=6 => {
            let rule = rng.pick(rules);
            let spot = *rng.pick(&rule.spots);
            let plan = random::full_plan(rng);
            rule.case(spot, &plan, *rng.pick(&[Answering::AllYes, Answering::Verified]), rng)
        }
        7 => {
            let built = random::built(rng);
            let mut bytes = built.bytes();
            let length = rng.below(bytes.len() + 1);
            bytes.truncate(length);
            let known = built.known(bytes, built.lines_of_beginning(length));
            Case::known(format!("a random stream cut off at {length}"), known, Answering::Verified, rng)
        }
        _ => {
            let plan = random::full_plan(rng);
            damage::several(&parts::maybe_part(&plan, rng), rng)
        }
    }
}

/// A random honest stream, answered in some way, with some bytes behind it now and then.
fn honest_case(rng: &mut Rng) -> Case {
    let built = random::built(rng);
    let questions = built.lines().iter().filter(|line| line.starts_with("question")).count();
    let answering = match rng.below(8) {
        0 => Answering::NoAfter(rng.below(questions)),
        1 => Answering::OutAfter(rng.below(questions)),
        2 | 3 => Answering::AllYes,
        _ => Answering::Verified,
    };
    let mut bytes = built.bytes();
    if rng.one_in(4) {
        let count = rng.between(1, 50);
        bytes.extend(rng.bytes(count));
    }
    let label = format!("a random honest stream of {} bytes", bytes.len());
    Case::known(label, built.known(bytes, built.lines()), answering, rng)
}
