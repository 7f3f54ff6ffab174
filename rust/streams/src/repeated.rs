//! Heads in which a name comes in several lines (request #102): names that may repeat, signed over their joined values or not
//! signed at all; heads that are signed over something else; names that may come only once, and names that are almost such.
//! First a table on the example, then random streams.

use crate::case::{Answering, Case};
use crate::damage;
use crate::example;
use crate::head::Field;
use crate::limits::{before, FIELDS, LISTED, SECTION};
use crate::plan::{Built, Join, Plan};
use crate::random::{self, any_text, change_case, trimmed, BLANKS};
use crate::rng::Rng;
use crate::rules::edits::{swapped_case, BSIGS, CODING, INJECTION, ODD_LINES, SIG0, URI, VERSION};
use crate::table::Table;
use second::event::Refusal;

/// How many random cases the group has beside its table.
const RANDOM: u64 = 300;
/// The numbers of these cases begin here, where those of other groups never come.
const FROM: u64 = 1 << 32;

/// The names that the example lists, the two pseudo names included.
const OWN_LISTED: usize = 7;

/// Names that may come only once.
const SINGLE: [&str; 10] =
    [VERSION, URI, INJECTION, BSIGS, SIG0, CODING, "X-Ouinet-Foo", "x-ouinet-", "X-OUINET-A", "Content-Length"];
/// Names that differ a little from those, and may repeat.
const ALMOST: [&str; 13] = [
    "Content-Length-A",
    "content-lengt",
    "A-Content-Length",
    "Content_Length",
    "Transfer-Encoding-",
    "transfer-encodin",
    "X-Transfer-Encoding",
    "X-Ouinet",
    "x-ouine-",
    "X-Ouinet_A",
    "XX-Ouinet-A",
    "X_Ouinet-A",
    "Ouinet-Version",
];
/// The values of a name's lines.
const VALUES: [&[&str]; 10] = [
    &["a", "b"],
    &["b", "a"],
    &["a", "a"],
    &["", "b", ""],
    &["", ""],
    &["a", ""],
    &["Accept-Encoding, Accept", "Cookie,", ",", ", ,"],
    &["a b\tc", "\u{e9}\u{fc}", "~!\"(=;:"],
    &["1.1 first, 1.0 second", "1.1 third"],
    &["a, b"],
];

/// A way to make one value of several, with its name.
type NamedJoin = (&'static str, fn(&[&[u8]]) -> Vec<u8>);

/// Ways that are not the right one.
const WRONG: [NamedJoin; 10] = [
    ("the first value alone", |values| values[0].to_vec()),
    ("the last value alone", |values| values[values.len() - 1].to_vec()),
    ("no space between", |values| values.join(&b","[..])),
    ("a semicolon between", |values| values.join(&b"; "[..])),
    ("a semicolon and no space between", |values| values.join(&b";"[..])),
    ("a space before the comma", |values| values.join(&b" , "[..])),
    ("nothing between", |values| values.concat()),
    ("a line feed between", |values| values.join(&b"\n"[..])),
    ("the other order", |values| values.iter().rev().copied().collect::<Vec<_>>().join(&b", "[..])),
    ("empty values left out", |values| {
        values.iter().copied().filter(|value| !value.is_empty()).collect::<Vec<_>>().join(&b", "[..])
    }),
];

/// A rule, the number that it is refused with, and how it is broken.
type Rule = (&'static str, u8, fn(&mut Plan));

/// Rules that are tested after the names.
const BROKEN: [Rule; 5] = [
    ("version 5", 5, |plan| plan.field(VERSION).value = b"5".to_vec()),
    ("status 404", 4, |plan| plan.status = b"404".to_vec()),
    ("a length", 4, |plan| plan.add("Content-Length", b"5")),
    ("an empty URI", 4, |plan| plan.field(URI).value.clear()),
    ("an empty ring", 12, |plan| plan.ring.clear()),
];

/// All cases of this group for a seed.
pub fn all(seed: u64) -> Vec<Case> {
    let mut rng = Rng::for_case(seed, FROM);
    let mut table = Table::new(&mut rng);
    table.joined();
    table.almost_single();
    table.own_fields();
    table.many_lines();
    table.many_names();
    table.joined_lengths();
    table.single();
    table.listed_twice();
    table.order();
    table.bad_lines();
    table.wrongly_signed();
    let mut cases = table.cases;
    cases.extend((1..=RANDOM).map(|number| case(&mut Rng::for_case(seed, FROM + number))));
    cases
}

/// The example with these lines behind its own, and these names listed behind its own.
fn plan_with(lines: &[(&str, &str)], listed: &[&str]) -> Plan {
    let mut plan = example::plan();
    lines.iter().for_each(|(name, value)| plan.add(name, value.as_bytes()));
    listed.iter().for_each(|name| plan.list(name));
    plan
}

impl Table<'_> {
    /// A name's lines one after the other, or apart, in other cases and with blanks; signed or not.
    fn joined(&mut self) {
        for values in VALUES {
            let lines: Vec<(&str, &str)> = values.iter().map(|value| ("Vary", *value)).collect();
            self.good(format!("Vary {values:?}, signed"), &plan_with(&lines, &["vary"]));
            self.good(format!("Vary {values:?}, not signed"), &plan_with(&lines, &[]));
            let mut plan = plan_with(&lines, &["VARY"]);
            scatter(&mut plan, self.rng);
            self.good(format!("Vary {values:?}, signed, in lines apart"), &plan);
            plan.listed.pop();
            self.good(format!("Vary {values:?}, not signed, in lines apart"), &plan);
        }
        let two = [("Vary", "a"), ("Via", "1"), ("vary", "b"), ("via", "2"), ("Link", "x"), ("link", "y")];
        self.good("two names by turns, and one that is not signed", &plan_with(&two, &["via", "Vary"]));
    }

    fn almost_single(&mut self) {
        for name in ALMOST {
            let lines = [(name, "1"), (name, "2")];
            self.good(format!("{name} twice, signed"), &plan_with(&lines, &[name]));
            self.good(format!("{name} twice, not signed"), &plan_with(&lines, &[]));
        }
    }

    /// Fields that the example has already: two that it signs, and one that it does not.
    fn own_fields(&mut self) {
        for name in ["DATE", "content-type", "Trailer"] {
            self.good(format!("{name} once more"), &plan_with(&[(name, "x")], &[]));
            self.good(format!("{name} twice more"), &plan_with(&[(name, ""), (name, "x")], &[]));
        }
    }

    /// The limit is that of lines, not of names.
    fn many_lines(&mut self) {
        for count in [10, before::FIELDS, before::FIELDS + 1, 100, FIELDS - 1, FIELDS, FIELDS + 1, 200] {
            for listed in [&["vary"][..], &[]] {
                let own = example::plan().fields.len();
                let plan = plan_with(&vec![("Vary", "x"); count - own], listed);
                let signed = if listed.is_empty() { "not signed" } else { "signed" };
                let label = format!("{count} fields, most of one name, {signed}");
                self.good_if(count <= FIELDS, label, &plan);
            }
        }
        let empty = vec![("a", ""); FIELDS - example::plan().fields.len()];
        self.good("as many empty lines as can be", &plan_with(&empty, &["A"]));
    }

    /// As many listed names as there may be, each in two lines, and one more.
    fn many_names(&mut self) {
        for count in [LISTED - 1, LISTED, LISTED + 1] {
            let names: Vec<String> = (OWN_LISTED..count).map(|number| format!("name-{number}")).collect();
            let names: Vec<&str> = names.iter().map(String::as_str).collect();
            let lines: Vec<(&str, &str)> = names.iter().chain(&names).map(|name| (*name, "v")).collect();
            let plan = plan_with(&lines, &names);
            let label = format!("{count} listed names, most in two lines");
            if count <= LISTED {
                self.good(label, &plan);
            } else {
                self.refused(Refusal::plain(4), label, &plan.build());
            }
        }
    }

    /// Heads at the limit of bytes, in which a signed name has two lines or as many as can be.
    fn joined_lengths(&mut self) {
        let most = FIELDS - example::plan().fields.len();
        for length in [before::SECTION, before::SECTION + 1, SECTION - 1, SECTION, SECTION + 1] {
            for count in [2, most] {
                let mut plan = plan_with(&vec![("Via", "1.1 relay"); count], &["via"]);
                plan.lengthen_last(length);
                let label = format!("a head of {length} bytes with {count} lines of one name");
                self.good_if(length <= SECTION, label, &plan);
            }
        }
    }

    /// Names that may come only once, signed or not, in any case, next to each other or not.
    fn single(&mut self) {
        for name in SINGLE {
            let value = if name == CODING { "chunked" } else { "4" };
            let is_own = example::plan().fields.iter().any(|field| field.name == name.as_bytes());
            for signed in ["listed", "not listed"] {
                let mut plan = plan_with(&[(name, value)], &[]);
                if !is_own {
                    plan.add(name, value.as_bytes());
                }
                plan.listed.retain(|listed| !listed.eq_ignore_ascii_case(name.as_bytes()));
                if signed == "listed" {
                    plan.list(name);
                }
                self.bad_head(format!("{name} twice, {signed}"), &plan);
                let last = plan.fields.last_mut().expect("a line");
                last.name = swapped_case(&last.name);
                plan.fields.rotate_right(1);
                self.bad_head(format!("{name} twice, in other cases, {signed}"), &plan);
                plan.fields.insert(0, Field::new("Vary", "a"));
                plan.fields.push(Field::new("Vary", "b"));
                self.bad_head(format!("{name} twice, and Vary, {signed}"), &plan);
            }
        }
        self.bad_head("a name of ours three times", &plan_with(&[("X-Ouinet-A", ""); 3], &[]));
    }

    /// A name stands in the list once, however many lines it has.
    fn listed_twice(&mut self) {
        for lines in
            [&[("Vary", "a")][..], &[("Vary", "a"), ("Vary", "b")], &[("Vary", "a"), ("vARY", "a"), ("Vary", "")]]
        {
            for listed in [["vary", "vary"], ["vary", "VARY"]] {
                let label = format!("{listed:?} listed with {} lines", lines.len());
                self.refused(Refusal::plain(4), label, &plan_with(lines, &listed).build());
            }
        }
        let label = "a listed name that no line has, beside a repeated one";
        self.refused(Refusal::plain(4), label, &plan_with(&[("Vary", "a"); 2], &["vary", "var"]).build());
    }

    /// Another rule broken: it gives the number, unless a name comes twice that may come once.
    fn order(&mut self) {
        for (label, number, edit) in BROKEN {
            let mut plan = plan_with(&[("Vary", "a"); 2], &["vary"]);
            edit(&mut plan);
            self.refused(Refusal::plain(number), format!("Vary twice and {label}"), &plan.build());
            plan.fields.extend([Field::new("x-ouinet-a", ""), Field::new("X-Ouinet-A", "")]);
            self.bad_head(format!("Vary twice, a name of ours twice, and {label}"), &plan);
        }
    }

    /// A line that is none goes before all else, and its place is told.
    fn bad_lines(&mut self) {
        let heads = [
            ("Vary twice", plan_with(&[("Vary", "a"); 2], &["vary"])),
            ("a name of ours twice", plan_with(&[("X-Ouinet-A", ""); 2], &[])),
            ("a length twice", plan_with(&[("Content-Length", "5"); 2], &[])),
            ("too many lines of a name", plan_with(&[("Vary", "a"); FIELDS], &["vary"])),
        ];
        for (label, plan) in heads {
            for (line, place) in ODD_LINES.iter().step_by(5) {
                let mut built = plan.build();
                let count = self.rng.below(plan.fields.len() + 1);
                let refusal = put_bad_line(&mut built, count, line, *place);
                self.refused(refusal, format!("{label}, and the line \"{}\"", line.escape_ascii()), &built);
            }
        }
    }

    fn wrongly_signed(&mut self) {
        for (label, join) in WRONG {
            for values in [&["a", "", "b"][..], &["Accept, Cookie", "", "", "Origin"]] {
                let lines: Vec<(&str, &str)> = values.iter().map(|value| ("Vary", *value)).collect();
                self.signed_over(&format!("{values:?} signed with {label}"), &plan_with(&lines, &["vary"]), &join);
            }
        }
        let plan = plan_with(&[("Vary", "a"), ("Vary", "b")], &["vary"]);
        let as_lines = |values: &[&[u8]]| values.join(&b"\nvary: "[..]);
        self.signed_over("two lines signed one by one", &plan, &as_lines);
        let mut blanks = plan.clone();
        blanks.fields.iter_mut().filter(|field| field.name == b"Vary").for_each(|field| field.right = b" ".to_vec());
        let with_blanks = |values: &[&[u8]]| if values.len() > 1 { b"a , b ".to_vec() } else { values.concat() };
        self.signed_over("two values signed with their blanks", &blanks, &with_blanks);
    }

    fn signed_over(&mut self, label: &str, plan: &Plan, join: &Join) {
        let case = Case::wrongly_signed(label, &plan.build_signed_over(join), self.rng);
        self.cases.push(case);
    }
}

/// Puts a line that is none into a built head, behind so many fields. It is refused where that line goes wrong.
fn put_bad_line(built: &mut Built, count: usize, line: &[u8], place: usize) -> Refusal {
    let before = built.head.status_line.len() + 2;
    let fields: usize = built.head.fields[..count].iter().map(|field| field.line().len()).sum();
    let start = before + fields;
    built.parts[0].bytes.splice(start..start, [line, b"\r\n"].concat());
    Refusal::head(start + place)
}

/// The fields in another order, those of one name left in theirs, with names in other cases and blanks at the values' ends.
fn scatter(plan: &mut Plan, rng: &mut Rng) {
    let (repeated, others): (Vec<Field>, Vec<Field>) = plan.fields.drain(..).partition(|field| field.name == b"Vary");
    plan.fields = others;
    let mut place = 0;
    for mut field in repeated {
        change_case(&mut field.name, rng);
        (field.left, field.right) = (rng.pick(&BLANKS).to_vec(), rng.pick(&BLANKS).to_vec());
        place = rng.between(place, plan.fields.len());
        plan.fields.insert(place, field);
        place += 1;
    }
}

/// A random case.
pub fn case(rng: &mut Rng) -> Case {
    match rng.below(10) {
        0..=5 => {
            let answering = *rng.pick(&[Answering::Verified, Answering::Verified, Answering::AllYes]);
            Case::whole("a random head with repeated fields", &plan(rng).build(), answering, rng)
        }
        6 => wrongly_signed_case(rng),
        7 => single_case(rng),
        8 => bad_line_case(rng),
        _ => damage::several(&plan(rng).build(), rng),
    }
}

/// An honest random plan in which one to three names have several lines.
pub fn plan(rng: &mut Rng) -> Plan {
    plan_of(FIELDS, rng)
}

/// Such a plan with so many fields at most.
fn plan_of(most: usize, rng: &mut Rng) -> Plan {
    let mut plan = random::bare_full_plan(rng);
    for _ in 0..rng.between(1, 3) {
        let room = most.saturating_sub(plan.fields.len());
        if room < 2 {
            break;
        }
        let name = any_name(&mut plan, rng);
        let bound = *rng.pick(&[2, 2, 3, 6, FIELDS]);
        for _ in 0..rng.between(2, bound).min(room) {
            insert_anywhere(&mut plan, any_line(&name, rng), rng);
        }
    }
    plan
}

fn insert_anywhere(plan: &mut Plan, field: Field, rng: &mut Rng) {
    let place = rng.below(plan.fields.len() + 1);
    plan.fields.insert(place, field);
}

/// A name that may repeat: one that the plan has, or one that it may not have, which is then signed or not.
fn any_name(plan: &mut Plan, rng: &mut Rng) -> Vec<u8> {
    let names: Vec<&[u8]> = plan.fields.iter().map(|field| &field.name[..]).collect();
    let others: Vec<&[u8]> = names.iter().copied().filter(|name| is_other(name)).collect();
    if !others.is_empty() && rng.one_in(2) {
        return rng.pick(&others).to_vec();
    }
    let name = *rng.pick(&[&b"Vary"[..], b"Via", b"Link", b"Set-Cookie", b"X-Ouinet", b"Content-Length-A"]);
    let is_new = !names.iter().any(|other| other.eq_ignore_ascii_case(name));
    if is_new && !rng.one_in(3) {
        plan.listed.push(name.to_vec());
    }
    name.to_vec()
}

/// Whether it is none of the names that every stream has.
fn is_other(name: &[u8]) -> bool {
    let own = [VERSION, URI, INJECTION, BSIGS, SIG0, CODING];
    !own.iter().any(|own| name.eq_ignore_ascii_case(own.as_bytes()))
}

/// A line of that name, in any case, with any value and blanks.
fn any_line(name: &[u8], rng: &mut Rng) -> Field {
    let mut name = name.to_vec();
    change_case(&mut name, rng);
    let value = if rng.one_in(4) { Vec::new() } else { trimmed(any_text(rng, 30)) };
    Field { name, left: rng.pick(&BLANKS).to_vec(), value, right: rng.pick(&BLANKS).to_vec() }
}

/// A random plan with a signed name of three lines that differ, signed over something else than the joined values.
fn wrongly_signed_case(rng: &mut Rng) -> Case {
    let mut plan = plan_of(FIELDS - 3, rng);
    plan.list("Three");
    for value in ["b", "", "a"] {
        plan.add("three", value.as_bytes());
    }
    let (label, join) = *rng.pick(&WRONG);
    Case::wrongly_signed(format!("a random head signed with {label}"), &plan.build_signed_over(&join), rng)
}

/// A name twice or more that may come once: one that every stream has, or another.
fn single_case(rng: &mut Rng) -> Case {
    let mut plan = plan_of(FIELDS - 2, rng);
    let name = *rng.pick(&SINGLE);
    for _ in 0..2 {
        let mut field = Field::new(name, if name == CODING { "chunked" } else { "4" });
        change_case(&mut field.name, rng);
        insert_anywhere(&mut plan, field, rng);
    }
    let built = plan.build();
    let refusal = Refusal::head(built.parts[0].bytes.len());
    Case::refused_head(refusal, format!("a random head with repeated fields, and {name} twice"), &built, rng)
}

/// A line that is none somewhere in a random head.
fn bad_line_case(rng: &mut Rng) -> Case {
    let plan = plan(rng);
    let mut built = plan.build();
    let (line, place) = *rng.pick(&ODD_LINES);
    let refusal = put_bad_line(&mut built, rng.below(plan.fields.len() + 1), line, place);
    Case::refused_head(refusal, "a random head with repeated fields, and a bad line", &built, rng)
}
