//! Heads and trailers beyond paper 01's own limits (request #108): more bytes, more fields, and what goes wrong far into them. First a
//! table on the example, then random streams, full ones and ones that are a little too long among them. (`bounds` has both sides of each limit.)

use crate::bounds::padded;
use crate::case::{Answering, Case};
use crate::damage;
use crate::example;
use crate::head::Field;
use crate::limits::{before, FIELDS, LISTED, SECTION};
use crate::plan::{Built, Kind, Plan};
use crate::random;
use crate::rng::Rng;
use crate::rules::edits::{swapped_case, ODD_LINES, URI};
use crate::table::Table;
use second::event::Refusal;

/// How many random cases the group has beside its table.
const RANDOM: u64 = 120;
/// The numbers of these cases begin here, where those of other groups never come.
const FROM: u64 = 1 << 34;

/// All cases of this group for a seed.
pub fn all(seed: u64) -> Vec<Case> {
    let mut rng = Rng::for_case(seed, FROM);
    let mut table = Table::new(&mut rng);
    table.full_heads();
    table.doubled_far_apart();
    table.long_lists();
    table.long_uris();
    table.signed_in_part();
    table.bad_lines_in_heads();
    table.trailers();
    let mut cases = table.cases;
    cases.extend((1..=RANDOM).map(|number| case(&mut Rng::for_case(seed, FROM + number))));
    cases
}

/// A way to name fields by their number. The long ones have one length and differ at their ends.
type Names = (&'static str, fn(usize) -> String);

const NAMES: [Names; 4] = [
    ("short names", |number| format!("n{number}")),
    ("long names", |number| format!("{}{number:03}", "n".repeat(100))),
    ("names of ours", |number| format!("X-Ouinet-{number:03}")),
    ("long names of ours", |number| format!("X-Ouinet-{}{number:03}", "n".repeat(100))),
];

/// The example with so many fields in all, named so, and as many of them listed as can be.
fn plan_of(count: usize, name: fn(usize) -> String) -> Plan {
    let mut plan = example::plan();
    for number in plan.fields.len()..count {
        plan.add(&name(number), format!("value {number}").as_bytes());
        if plan.listed.len() + 2 < LISTED {
            plan.list(&name(number));
        }
    }
    plan
}

impl Table<'_> {
    /// As many fields as can be, and fewer; the listed ones are the last in the head or the first.
    fn full_heads(&mut self) {
        for (label, name) in NAMES {
            for count in [before::FIELDS + 1, 100, FIELDS] {
                let mut plan = plan_of(count, name);
                self.good(format!("{count} fields with {label}"), &plan);
                plan.fields.reverse();
                self.good(format!("{count} fields with {label}, in the other order"), &plan);
            }
            self.bad_head(format!("{} fields with {label}", FIELDS + 1), &plan_of(FIELDS + 1, name));
        }
    }

    /// Two of as many fields as can be have one name.
    fn doubled_far_apart(&mut self) {
        let (last, edge) = (FIELDS - 1, before::FIELDS);
        let own = example::plan().fields.len();
        for (label, name) in NAMES {
            for (one, other) in
                [(own, last), (own, own + 1), (last - 1, last), (edge - 1, edge), (edge, edge + 1), (edge - 1, last)]
            {
                let mut plan = plan_of(FIELDS, name);
                // It is listed under the first one's name, if at all
                let lost = plan.fields[other].name.clone();
                plan.listed.retain(|listed| *listed != lost);
                plan.fields[other].name = swapped_case(&plan.fields[one].name);
                let label = format!("fields {one} and {other} of {FIELDS} have one name, {label}");
                self.good_if(!plan.fields[one].name.starts_with(b"X-Ouinet-"), label, &plan);
            }
        }
    }

    /// Listed names that fill the head: each stands in its line and in the list, and its line is signed.
    fn long_lists(&mut self) {
        for length in [before::SECTION + 1, 20_000, SECTION - 1, SECTION, SECTION + 1] {
            let mut plan = plan_of(FIELDS, |number| format!("n{number}"));
            let own = example::plan();
            let width = (length - plan.head_length()) / (2 * (LISTED - 2 - own.listed.len()));
            let fields = plan.fields[own.fields.len()..].iter_mut();
            for (field, listed) in fields.zip(&mut plan.listed[own.listed.len()..]) {
                field.name.extend(b"a".repeat(width));
                listed.clone_from(&field.name);
            }
            plan.lengthen_last(length);
            let label = format!("a head of {length} bytes, most of them in listed names");
            self.good_if(length <= SECTION, label, &plan);
        }
    }

    /// URIs that no head could have before, and their neighbours.
    fn long_uris(&mut self) {
        for length in [before::SECTION, 20_000, 31_000] {
            let mut plan = example::plan();
            plan.field(URI).value = b"u".repeat(length);
            self.good(format!("a URI of {length} bytes"), &plan);
            let built = plan.build();
            for (label, asked) in [
                ("a byte less", b"u".repeat(length - 1)),
                ("a byte more", b"u".repeat(length + 1)),
                ("another last byte", [&b"u".repeat(length - 1)[..], b"U"].concat()),
                ("as much of it as a head could have before", b"u".repeat(7000)),
            ] {
                let case =
                    Case::whole(format!("a URI of {length} bytes, {label}"), &built, Answering::AllYes, self.rng);
                self.cases.push(case.asked_by(asked));
            }
        }
    }

    /// The signature covers a beginning of a long value, or all of it but its end.
    fn signed_in_part(&mut self) {
        for length in [9000, SECTION] {
            let plan = padded(length, "signed");
            for covered in [7000, 7999] {
                let join = move |values: &[&[u8]]| {
                    let whole = values.join(&b", "[..]);
                    whole[..whole.len().min(covered)].to_vec()
                };
                let label = format!("a head of {length} bytes, {covered} bytes of its long value signed");
                let case = Case::wrongly_signed(label, &plan.build_signed_over(&join), self.rng);
                self.cases.push(case);
            }
        }
    }

    /// A line that is none, far into a head, or so that the head is just full or a byte too long.
    fn bad_lines_in_heads(&mut self) {
        for (line, place) in ODD_LINES.iter().step_by(3) {
            let shown = line.escape_ascii();
            for length in [before::SECTION + 1, 20_000, SECTION, SECTION + 1] {
                let mut built = padded(length - line.len() - 2, "unsigned").build();
                let refusal = put_last(&mut built, line, *place);
                self.refused(refusal, format!("a head of {length} bytes, and its last line is \"{shown}\""), &built);
            }
            let mut built = plan_of(FIELDS + 1, |number| format!("n{number}")).build();
            let refusal = put_last(&mut built, line, *place);
            self.refused(refusal, format!("too many fields, and then the line \"{shown}\""), &built);
        }
    }

    /// Trailers of many lines, good ones and ones with a bad line at their end.
    fn trailers(&mut self) {
        for length in [before::SECTION + 1, 20_000, SECTION] {
            let mut plan = example::plan();
            plan.trailer = trailer_of(length, b"");
            self.good(format!("a trailer of {length} bytes in many lines"), &plan);
            let built = plan.build();
            for (line, place) in ODD_LINES.iter().step_by(5) {
                let refusal = Refusal::frame(length - 2 - line.len() - 2 + place);
                let label = format!("a trailer of {length} bytes, and its last line is \"{}\"", line.escape_ascii());
                self.instead(refusal, label, &built, built.places(Kind::Trailer)[0], &trailer_of(length, line));
            }
        }
    }
}

/// A trailer of so many bytes, most of them in short lines, the last of which is this one unless that is empty.
fn trailer_of(length: usize, last: &[u8]) -> Vec<u8> {
    let end = if last.is_empty() { b"\r\n".to_vec() } else { [last, b"\r\n\r\n"].concat() };
    let front = length - end.len();
    let mut lines = b"a: b\r\n".repeat(front / 6 - 1);
    lines.extend([b"a:", &b" ".repeat(front - lines.len() - 4)[..], b"\r\n"].concat());
    [lines, end].concat()
}

/// Puts a line that is none at the end of a built head. It is refused where that line goes wrong, unless the limit comes first.
fn put_last(built: &mut Built, line: &[u8], place: usize) -> Refusal {
    let bytes = &mut built.parts[0].bytes;
    let start = bytes.len() - 2;
    bytes.splice(start..start, [line, b"\r\n"].concat());
    Refusal::head(if bytes.len() > SECTION { SECTION } else { start + place })
}

/// A random case.
pub fn case(rng: &mut Rng) -> Case {
    match rng.below(8) {
        0..=3 => Case::whole("a random longer stream", &plan(rng).build(), Answering::Verified, rng),
        4 => too_long_case(rng),
        5 => too_many_case(rng),
        6 => bad_line_case(rng),
        _ => damage::several(&plan(rng).build(), rng),
    }
}

/// An honest random plan with a head of more fields or bytes than there could be before, or with such a trailer; now and then full.
pub fn plan(rng: &mut Rng) -> Plan {
    let mut plan = random::bare_full_plan(rng);
    let (many, long) = (rng.one_in(2), rng.one_in(2));
    if many {
        let count = if rng.one_in(3) { FIELDS } else { rng.between(before::FIELDS + 1, FIELDS) };
        random::add_many_fields(&mut plan, count - 1, rng);
    }
    if long {
        let length = if rng.one_in(3) { SECTION } else { rng.between(before::SECTION + 1, SECTION) };
        fill_head(&mut plan, length, rng);
    }
    if !(many || long) {
        // It gets up to a hundred bytes less
        let length = rng.between(before::SECTION + 101, SECTION);
        plan.trailer = random::long_trailer(length, rng);
    }
    plan
}

/// Adds a field, signed or not, whose value makes the head so long, if it was not so long already.
fn fill_head(plan: &mut Plan, length: usize, rng: &mut Rng) {
    plan.fields.push(Field::new("Fill", ""));
    if rng.one_in(2) {
        plan.list("fill");
    }
    let lacking = length.saturating_sub(plan.head_length());
    plan.field("Fill").value = b"f".repeat(lacking);
}

/// A head that is a few bytes too long, or many.
fn too_long_case(rng: &mut Rng) -> Case {
    let mut plan = random::bare_full_plan(rng);
    let more = *rng.pick(&[1, 1, 2, 3, 4, 1000]);
    fill_head(&mut plan, SECTION + more, rng);
    Case::refused_head(Refusal::head(SECTION), format!("a random head, {more} bytes too long"), &plan.build(), rng)
}

/// A head with a field too many, or several.
fn too_many_case(rng: &mut Rng) -> Case {
    let mut plan = random::bare_full_plan(rng);
    let more = rng.between(1, 3);
    random::add_many_fields(&mut plan, FIELDS + more, rng);
    let built = plan.build();
    let refusal = Refusal::head(built.parts[0].bytes.len());
    Case::refused_head(refusal, format!("a random head, {more} fields too many"), &built, rng)
}

/// A line that is none at the end of a random head.
fn bad_line_case(rng: &mut Rng) -> Case {
    let mut built = plan(rng).build();
    let (line, place) = *rng.pick(&ODD_LINES);
    let refusal = put_last(&mut built, line, place);
    Case::refused_head(refusal, "a random longer head, and a bad line", &built, rng)
}
