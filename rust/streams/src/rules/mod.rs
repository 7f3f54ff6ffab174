//! A table of the rules of paper 01, as requests #102 and #108 amend them, each broken once, with the number
//! that a reader must refuse with and, for 3 and 6, the place where the text goes wrong (request #106).
//! A rule is broken on an otherwise honest stream, so what comes before is known as well.

pub(crate) mod edits;
mod in_body;
mod in_head;
mod in_signatures;

use crate::case::{Answering, Case};
use crate::head::Head;
use crate::part_answer::PartAnswer;
use crate::plan::{Built, Kind, Known, Part, Plan};
use crate::rng::Rng;
use second::event::Refusal;

/// Which part of a stream is broken, and so which one is refused.
#[derive(Clone, Copy, PartialEq, Eq, Debug)]
pub enum Spot {
    Head,
    FirstLine,
    LaterLine,
    ZeroLine,
    Data,
    DataEnd,
    Trailer,
}

const ANY_LINE: &[Spot] = &[Spot::FirstLine, Spot::LaterLine, Spot::ZeroLine];
const SIGNED_LINE: &[Spot] = &[Spot::LaterLine, Spot::ZeroLine];

type PlanEdit = Box<dyn Fn(&mut Plan)>;
type HeadEdit = Box<dyn Fn(&mut Head)>;
type PartEdit = Box<dyn Fn(&[u8], &Plan) -> Spoilt>;

/// A part after an edit, and where its text goes wrong if that is what the edit is about.
struct Spoilt {
    bytes: Vec<u8>,
    at: Option<usize>,
}

impl Spoilt {
    /// Good text and what cannot follow it.
    fn after(good: &[u8], wrong: &[u8]) -> Self {
        Spoilt { bytes: [good, wrong].concat(), at: Some(good.len()) }
    }

    /// Bytes that are refused for their length, count or a doubling, when so many were taken.
    fn taken(bytes: Vec<u8>, at: usize) -> Self {
        Spoilt { bytes, at: Some(at) }
    }
}

/// A rule to break: on the plan before anything is signed, on the built head, or on the bytes of a
/// part.
pub struct Rule {
    pub label: String,
    pub number: u8,
    pub spots: Vec<Spot>,
    plan: PlanEdit,
    head: HeadEdit,
    part: PartEdit,
}

impl Rule {
    /// Breaks the rule at this spot of the plan's stream, which is asked for by the plan's own URI. The plan
    /// must have two full blocks and a short one.
    fn break_at(&self, spot: Spot, plan: &Plan, rng: &mut Rng) -> Known {
        let uri = plan.uri();
        let mut plan = plan.clone();
        (self.plan)(&mut plan);
        self.break_built(spot, Built { uri, ..plan.build() }, &plan, rng)
    }

    /// Whether the rule is one of part answers too: not where another status or other blocks break it.
    pub(crate) fn fits_part(&self, plan: &Plan) -> bool {
        let mut edited = plan.clone();
        (self.plan)(&mut edited);
        edited.status == plan.status && edited.blocks == plan.blocks
    }

    /// Breaks the rule at this spot of a part answer, which must have two blocks.
    pub(crate) fn break_part(&self, spot: Spot, answer: &mut PartAnswer, rng: &mut Rng) -> Known {
        let uri = answer.plan.uri();
        (self.plan)(&mut answer.plan);
        self.break_built(spot, Built { uri, ..answer.build_unjudged() }, &answer.plan, rng)
    }

    /// Breaks the rule, where that is done on the head or on a part, at this spot of a plan's stream.
    fn break_built(&self, spot: Spot, mut built: Built, plan: &Plan, rng: &mut Rng) -> Known {
        let number = part_number(&built, spot, rng);
        if spot == Spot::Head {
            (self.head)(&mut built.head);
            built.parts[0].bytes = built.head.bytes();
        }
        let mut lines = built.lines_before(number);
        let part: &mut Part = &mut built.parts[number];
        let spoilt = (self.part)(&part.bytes, plan);
        part.bytes = spoilt.bytes;
        let refusal = Refusal { number: self.number, at: spoilt.at };
        lines.push(refusal.to_string());
        built.known(built.bytes(), lines)
    }

    /// The case of the rule broken there.
    pub fn case(&self, spot: Spot, plan: &Plan, answering: Answering, rng: &mut Rng) -> Case {
        let broken = self.break_at(spot, plan, rng);
        Case::known(format!("{} at {spot:?}", self.label), broken, answering, rng)
    }
}

fn part_number(built: &Built, spot: Spot, rng: &mut Rng) -> usize {
    let lines = built.places(Kind::Line);
    match spot {
        Spot::Head => 0,
        Spot::FirstLine => lines[0],
        Spot::LaterLine => *rng.pick(&lines[1..]),
        Spot::ZeroLine => built.places(Kind::ZeroLine)[0],
        Spot::Data => *rng.pick(&built.places(Kind::Data)),
        Spot::DataEnd => *rng.pick(&built.places(Kind::DataEnd)),
        Spot::Trailer => built.places(Kind::Trailer)[0],
    }
}

/// All rules of the table.
pub fn all() -> Vec<Rule> {
    let mut table = Table::default();
    table.status_line();
    table.field_lines();
    table.doubled_names();
    table.version();
    table.simple_fields();
    table.injection();
    table.keys_and_algorithms();
    table.bsigs();
    table.sig0();
    table.list();
    table.ring();
    table.order_in_the_head();
    table.line_text();
    table.line_rules();
    table.data_ends();
    table.trailer();
    table.rules
}

/// The table in the making. The rules themselves are added in the modules above.
#[derive(Default)]
struct Table {
    rules: Vec<Rule>,
}

impl Table {
    fn push(&mut self, number: u8, label: String, spots: &[Spot], plan: PlanEdit, head: HeadEdit, part: PartEdit) {
        self.rules.push(Rule { label, number, spots: spots.to_vec(), plan, head, part });
    }

    /// Broken on the plan: all the rest is signed as it should be. The head is refused.
    fn plan(&mut self, number: u8, label: impl Into<String>, edit: impl Fn(&mut Plan) + 'static) {
        self.push(number, label.into(), &[Spot::Head], Box::new(edit), Box::new(|_| ()), unchanged());
    }

    /// Broken on the built head, by a rule that is not about its text.
    fn head(&mut self, number: u8, label: impl Into<String>, edit: impl Fn(&mut Head) + 'static) {
        self.push(number, label.into(), &[Spot::Head], Box::new(|_| ()), Box::new(edit), unchanged());
    }

    /// The text of the built head broken, or its fields too many or doubled: refused with 3 at a place of its bytes.
    fn head_text(
        &mut self,
        label: impl Into<String>,
        edit: impl Fn(&mut Head) + 'static,
        place: impl Fn(&[u8]) -> usize + 'static,
    ) {
        let part = move |bytes: &[u8], _: &Plan| Spoilt::taken(bytes.to_vec(), place(bytes));
        self.push(3, label.into(), &[Spot::Head], Box::new(|_| ()), Box::new(edit), Box::new(part));
    }

    /// Broken on the bytes of a part, by a rule that is not about its text.
    fn part(
        &mut self,
        number: u8,
        label: impl Into<String>,
        spots: &[Spot],
        edit: impl Fn(&[u8], &Plan) -> Vec<u8> + 'static,
    ) {
        let part = move |bytes: &[u8], plan: &Plan| Spoilt { bytes: edit(bytes, plan), at: None };
        self.push(number, label.into(), spots, Box::new(|_| ()), Box::new(|_| ()), Box::new(part));
    }

    /// The text of a part broken: refused with 3 in the head, else with 6.
    fn text(&mut self, label: impl Into<String>, spots: &[Spot], edit: impl Fn(&[u8]) -> Spoilt + 'static) {
        let number = if spots.contains(&Spot::Head) { 3 } else { 6 };
        let part = move |bytes: &[u8], _: &Plan| edit(bytes);
        self.push(number, label.into(), spots, Box::new(|_| ()), Box::new(|_| ()), Box::new(part));
    }

    /// Broken by a plan of another shape: refused at this spot.
    fn shape(&mut self, number: u8, label: impl Into<String>, spot: Spot, plan: impl Fn(&mut Plan) + 'static) {
        self.push(number, label.into(), &[spot], Box::new(plan), Box::new(|_| ()), unchanged());
    }

    /// A field's value set to each of these texts.
    fn values(&mut self, number: u8, name: &'static str, texts: &[&'static str]) {
        for &text in texts {
            self.head(number, format!("{name} is {text:?}"), move |head| head.set(name, text.as_bytes()));
        }
    }

    /// A text in a field's value replaced by another.
    fn replacements(&mut self, number: u8, name: &'static str, pairs: &[(&'static str, &'static str)]) {
        for &(old, new) in pairs {
            self.head(number, format!("{name} has {new:?} for {old:?}"), move |head| {
                head.replace(name, old.as_bytes(), new.as_bytes())
            });
        }
    }
}

fn unchanged() -> PartEdit {
    Box::new(|bytes, _| Spoilt { bytes: bytes.to_vec(), at: None })
}
