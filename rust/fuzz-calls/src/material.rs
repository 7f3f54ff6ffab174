//! The streams that are fed, honest and broken, and the rings and URIs that fit them.

use ouinet_reader::raw::RECORD_SIZE;
use second::files::parse_ring;
use second::ring::Record;
use streams::asked;
use streams::case::{Answering, Case};
use streams::damage;
use streams::ends;
use streams::head;
use streams::longer;
use streams::parts;
use streams::plan::{ring_text, Built};
use streams::random;
use streams::repeated;
use streams::rng::Rng;
use streams::rules::{self, Rule, Spot};
use streams::sequence::{Group, Sequence};
use streams::wrong_text;

/// A stream, its ring, and the URI that it is asked for by: mostly that of its head.
#[derive(Clone)]
pub struct Material {
    pub label: String,
    pub stream: Vec<u8>,
    pub ring: Vec<Record>,
    pub uri: Vec<u8>,
}

/// The records as the library reads them.
pub fn ring_bytes(ring: &[Record]) -> Vec<u8> {
    let mut out = Vec::with_capacity(ring.len() * RECORD_SIZE);
    for record in ring {
        out.extend(record.key);
        out.extend(record.first.to_le_bytes());
        out.extend(record.last.to_le_bytes());
    }
    out
}

impl Material {
    /// What stands before the colon of some line of the head.
    pub fn any_name(&self, rng: &mut Rng) -> Vec<u8> {
        let names: Vec<&[u8]> = head::line_names(&self.stream).collect();
        rng.pick(&names).to_vec()
    }

    fn of_case(case: Case) -> Self {
        let ring = parse_ring(&case.ring).unwrap_or_default();
        Material { label: case.label, stream: case.stream, ring, uri: case.uri }
    }

    fn of_built(label: &str, built: &Built) -> Self {
        let ring = parse_ring(&ring_text(&built.ring)).unwrap_or_default();
        Material { label: label.to_string(), stream: built.bytes(), ring, uri: built.uri.clone() }
    }
}

/// What materials are drawn from.
pub struct Pool {
    /// The example, each rule broken on it, both sides of each limit, repeated fields, asked URIs, longer heads, ends of shows, and part
    /// answers.
    fixed: Vec<Material>,
    small: Vec<Built>,
    hits: Vec<damage::Hit>,
    rules: Vec<Rule>,
}

impl Pool {
    pub fn new() -> Self {
        let groups = [
            Group::Example,
            Group::Rules,
            Group::Bounds,
            Group::Repeated,
            Group::Asked,
            Group::Longer,
            Group::Ends,
            Group::Parts,
        ];
        let small = [damage::streams(), vec![parts::small()]].concat();
        Pool {
            fixed: Sequence::new(1, &groups).map(Material::of_case).collect(),
            hits: damage::every_place(&small),
            small,
            rules: rules::all(),
        }
    }

    pub fn draw(&self, rng: &mut Rng) -> Material {
        match rng.below(24) {
            0 | 1 => rng.pick(&self.fixed).clone(),
            2 | 3 => Material::of_case(damage::case(*rng.pick(&self.hits), &self.small, rng)),
            4 => Material::of_built("a small stream", rng.pick(&self.small)),
            5 => self.broken(|_| true, rng),
            16 => self.broken(|rule| !rule.spots.contains(&Spot::Head), rng),
            6 => Material::of_case(damage::several(&random::full_plan(rng).build(), rng)),
            7 => Material::of_case(wrong_text::case(rng)),
            8 | 9 => Material::of_case(repeated::case(rng)),
            10 | 17 => Material::of_case(asked::case(&self.rules, rng)),
            11 => Material::of_case(longer::case(rng)),
            12..=15 => Material::of_case(ends::case(rng)),
            18..=21 => Material::of_case(parts::case(&self.rules, rng)),
            _ => Material::of_built("a random stream", &random::built(rng)),
        }
    }

    /// A rule of some kind broken on a random stream.
    fn broken(&self, is_of_kind: impl Fn(&Rule) -> bool, rng: &mut Rng) -> Material {
        let rules: Vec<&Rule> = self.rules.iter().filter(|rule| is_of_kind(rule)).collect();
        let rule = *rng.pick(&rules);
        let spot = *rng.pick(&rule.spots);
        let plan = random::full_plan(rng);
        Material::of_case(rule.case(spot, &plan, Answering::AllYes, rng))
    }
}

impl Default for Pool {
    fn default() -> Self {
        Pool::new()
    }
}
