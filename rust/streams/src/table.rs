//! Cases that are made one after another, each with its own cuts.

use crate::case::{Answering, Case};
use crate::limits;
use crate::plan::{Built, Plan};
use crate::rng::Rng;
use second::event::Refusal;

/// The cases so far, and what their cuts are drawn from.
pub struct Table<'a> {
    pub cases: Vec<Case>,
    pub rng: &'a mut Rng,
}

impl<'a> Table<'a> {
    pub fn new(rng: &'a mut Rng) -> Self {
        Table { cases: Vec::new(), rng }
    }

    /// A stream whose head is refused at once.
    pub fn refused(&mut self, refusal: Refusal, label: impl Into<String>, built: &Built) {
        let case = Case::refused_head(refusal, label, built, self.rng);
        self.cases.push(case);
    }

    /// A plan whose head has good text, and too many bytes or lines, or a name twice that may come once: refused with 3 where the limit
    /// is reached, or else at its end.
    pub fn bad_head(&mut self, label: impl Into<String>, plan: &Plan) {
        let built = plan.build();
        let taken = built.parts[0].bytes.len().min(limits::SECTION);
        self.refused(Refusal::head(taken), label, &built);
    }

    /// A plan whose stream is good where that is said, and whose head else has too much, as `bad_head` has it.
    pub fn good_if(&mut self, is_good: bool, label: impl Into<String>, plan: &Plan) {
        if is_good {
            self.good(label, plan);
        } else {
            self.bad_head(label, plan);
        }
    }

    /// A plan whose stream is good.
    pub fn good(&mut self, label: impl Into<String>, plan: &Plan) {
        let case = Case::whole(label, &plan.build(), Answering::Verified, self.rng);
        self.cases.push(case);
    }

    /// Bytes for which the all-yes lines are these.
    pub fn bytes(&mut self, label: impl Into<String>, stream: Vec<u8>, built: &Built, lines: Vec<String>) {
        let case = Case::known(label, built.known(stream, lines), Answering::AllYes, self.rng);
        self.cases.push(case);
    }

    /// Bytes in the place of a part and all after it: what came before, and then this refusal.
    pub fn instead(&mut self, refusal: Refusal, label: impl Into<String>, built: &Built, part: usize, bytes: &[u8]) {
        let before: Vec<u8> = built.parts[..part].iter().flat_map(|part| part.bytes.clone()).collect();
        let mut lines = built.lines_before(part);
        lines.push(refusal.to_string());
        self.bytes(label, [&before, bytes].concat(), built, lines);
    }
}
