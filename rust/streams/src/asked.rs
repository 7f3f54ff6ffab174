//! Streams that are asked for by their own URI, or by another one that is almost the same (request #105). First a table on the
//! example: neighbours of a URI, blanks, what goes before and after refusal 16. Then random streams.

use crate::case::{Answering, Case};
use crate::damage;
use crate::example;
use crate::plan::Plan;
use crate::random::{self, BLANKS};
use crate::rng::Rng;
use crate::rules::edits::{swapped_case, TextEdit, URI};
use crate::rules::{self, Rule, Spot};
use crate::table::Table;
use second::event::Refusal;

/// How many random cases the group has beside its table.
const RANDOM: u64 = 200;
/// The numbers of these cases begin here, where those of other groups never come.
const FROM: u64 = 1 << 33;

/// URIs of heads.
const URIS: [&[u8]; 6] = [
    b"https://example.com/hello",
    b"u",
    b"https://EXAMPLE.com/Two%2f?a b\tc&\"d\"=`\\",
    b"https://example.com/s\xc3\xbcd",
    b"\x80\xff",
    &[b'p'; 6000],
];

/// Other bytes than those of a URI, in words and by what makes them of it. Of some URIs a few make the same.
const NEIGHBOURS: [(&str, TextEdit); 25] = [
    ("nothing", |_| Vec::new()),
    ("its first byte", |uri| uri[..uri.len().min(1)].to_vec()),
    ("its first half", |uri| uri[..uri.len() / 2].to_vec()),
    ("all but its last byte", |uri| uri[..uri.len().saturating_sub(1)].to_vec()),
    ("all but its first byte", |uri| uri[uri.len().min(1)..].to_vec()),
    ("it in capital letters", <[u8]>::to_ascii_uppercase),
    ("it in small letters", <[u8]>::to_ascii_lowercase),
    ("it in the other case", swapped_case),
    ("it with its first byte changed", |uri| changed(uri, 0, 1)),
    ("it with a byte inside changed", |uri| changed(uri, uri.len() / 2, 32)),
    ("it with its last byte changed", |uri| changed(uri, uri.len().saturating_sub(1), 1)),
    ("it with the highest bit of its last byte changed", |uri| changed(uri, uri.len().saturating_sub(1), 128)),
    ("it behind a space", |uri| [b" ", uri].concat()),
    ("it behind a tab", |uri| [b"\t", uri].concat()),
    ("it and a space", |uri| [uri, b" "].concat()),
    ("it and a tab", |uri| [uri, b"\t"].concat()),
    ("it between spaces", |uri| [b" ", uri, b" "].concat()),
    ("it and a line feed", |uri| [uri, b"\n"].concat()),
    ("it and CR LF", |uri| [uri, b"\r\n"].concat()),
    ("it and a zero byte", |uri| [uri, b"\0"].concat()),
    ("it and a slash", |uri| [uri, b"/"].concat()),
    ("it twice", |uri| uri.repeat(2)),
    ("it in quotes", |uri| [b"\"", uri, b"\""].concat()),
    ("its whole line", |uri| [b"X-Ouinet-URI: ", uri].concat()),
    ("it and 70,000 bytes", |uri| [uri, &b"x".repeat(70_000)].concat()),
];

/// Some bits of a byte turned over.
fn changed(uri: &[u8], place: usize, bits: u8) -> Vec<u8> {
    let mut out = uri.to_vec();
    if let Some(byte) = out.get_mut(place) {
        *byte ^= bits;
    }
    out
}

/// Another URI, mostly a neighbour of this one.
pub fn other_uri(uri: &[u8], rng: &mut Rng) -> Vec<u8> {
    loop {
        let other = match rng.below(8) {
            0 => random::any_text(rng, 60),
            1 => changed(uri, rng.below(uri.len() + 1), rng.byte()),
            _ => rng.pick(&NEIGHBOURS).1(uri),
        };
        if other != uri {
            return other;
        }
    }
}

/// All cases of this group for a seed.
pub fn all(seed: u64) -> Vec<Case> {
    let mut rng = Rng::for_case(seed, FROM);
    let mut table = Table::new(&mut rng);
    table.neighbours();
    table.blanks_around();
    table.without_uri();
    table.other_fields();
    table.cut_at_the_head();
    table.all_head_rules();
    let mut cases = table.cases;
    let rules = rules::all();
    cases.extend((1..=RANDOM).map(|number| case(&rules, &mut Rng::for_case(seed, FROM + number))));
    cases
}

/// The example with this URI.
fn plan_of(uri: &[u8]) -> Plan {
    let mut plan = example::plan();
    plan.field(URI).value = uri.to_vec();
    plan
}

impl Table<'_> {
    /// The plan's stream, which is good, asked for by these bytes.
    fn asked_by(&mut self, label: impl Into<String>, plan: &Plan, uri: Vec<u8>) {
        let case = Case::whole(label, &plan.build(), Answering::AllYes, self.rng).asked_by(uri);
        self.cases.push(case);
    }

    fn neighbours(&mut self) {
        for (number, uri) in URIS.into_iter().enumerate() {
            let plan = plan_of(uri);
            self.good(format!("URI {number}, asked for"), &plan);
            for (label, edit) in NEIGHBOURS.iter().filter(|(_, edit)| edit(uri) != uri) {
                self.asked_by(format!("URI {number}, asked for by {label}"), &plan, edit(uri));
            }
            let million = [uri, &b"x".repeat(1_000_000)].concat();
            self.asked_by(format!("URI {number}, asked for by it and a million bytes"), &plan, million);
        }
    }

    /// The head's blanks do not count, those of the asked bytes do.
    fn blanks_around(&mut self) {
        for (left, right) in BLANKS.into_iter().zip(BLANKS.into_iter().rev()) {
            let mut plan = example::plan();
            let field = plan.field(URI);
            (field.left, field.right) = (left.to_vec(), right.to_vec());
            let label = format!("a URI between \"{}\" and \"{}\"", left.escape_ascii(), right.escape_ascii());
            self.good(label.clone(), &plan);
            let line = [left, &plan.uri(), right].concat();
            self.asked_by(format!("{label}, asked for with them"), &plan, line);
        }
    }

    /// A head without a URI is refused with 4, whatever is asked for; one with two of them with 3.
    fn without_uri(&mut self) {
        let mut none = example::plan();
        none.fields.retain(|field| field.name != URI.as_bytes());
        let mut blank = plan_of(b"");
        blank.field(URI).right = b" \t".to_vec();
        for (label, plan) in [("an empty URI", plan_of(b"")), ("a URI of blanks", blank), ("no URI", none)] {
            for asked in [&b""[..], b" ", b" \t", b"https://example.com/hello"] {
                let mut built = plan.build();
                built.uri = asked.to_vec();
                let label = format!("{label}, asked for by \"{}\"", asked.escape_ascii());
                self.refused(Refusal::plain(4), label, &built);
            }
        }
        let own = example::plan().uri();
        for second in [&own[..], b"https://example.com/other"] {
            let mut plan = example::plan();
            plan.add(URI, second);
            for asked in [&own[..], second, b""] {
                let mut built = plan.build();
                built.uri = asked.to_vec();
                let refusal = Refusal::head(built.parts[0].bytes.len());
                self.refused(refusal, format!("two URIs, asked for by \"{}\"", asked.escape_ascii()), &built);
            }
        }
    }

    /// Only the head's field of that name counts, wherever it stands and however its name is written.
    fn other_fields(&mut self) {
        let asked = b"https://example.com/asked";
        for name in ["X-Ouinet-URI2", "X-Ouinet-UR", "URI", "X-Ouinet_URI", "Location", "Content-Location"] {
            let mut plan = example::plan();
            plan.add(name, asked);
            plan.fields.rotate_right(1);
            plan.list(name);
            self.good(format!("{name} with another URI"), &plan);
            self.asked_by(format!("{name} with the URI asked for"), &plan, asked.to_vec());
        }
        let mut plan = example::plan();
        plan.trailer = [b"X-Ouinet-URI: ", &asked[..], b"\r\n\r\n"].concat();
        self.good("a trailer with another URI", &plan);
        self.asked_by("a trailer with the URI asked for", &plan, asked.to_vec());
        for turn in 0..example::plan().fields.len() {
            let mut plan = example::plan();
            plan.fields.rotate_left(turn);
            let name = &mut plan.field(URI).name;
            *name = swapped_case(name);
            self.good(format!("the fields turned by {turn}"), &plan);
            self.asked_by(format!("the fields turned by {turn}, another URI"), &plan, asked.to_vec());
        }
    }

    /// The head alone is enough for a refusal, and no less.
    fn cut_at_the_head(&mut self) {
        let built = example::plan().build();
        let end = built.parts[0].bytes.len();
        for length in [end - 1, end, end + 1] {
            let known = built.known(built.bytes()[..length].to_vec(), built.lines_of_beginning(length));
            let label = format!("{length} bytes of a head of {end}, another URI");
            let case = Case::known(label, known, Answering::OutAfter(0), self.rng);
            self.cases.push(case.asked_by(b"https://example.com/other".to_vec()));
        }
    }

    /// Each rule of heads broken, and another URI: all go before 16 but those about keys, which go after it.
    fn all_head_rules(&mut self) {
        let plan = example::plan();
        for rule in rules::all().iter().filter(|rule| rule.spots.contains(&Spot::Head)) {
            let case = rule.case(Spot::Head, &plan, Answering::AllYes, self.rng);
            let uri = other_uri(&case.uri, self.rng);
            self.cases.push(case.asked_by(uri));
        }
    }
}

/// A random stream: asked for by its own URI, or by another one, and then perhaps with a broken rule or damage.
pub fn case(rules: &[Rule], rng: &mut Rng) -> Case {
    let plan = random::bare_full_plan(rng);
    let mut case = match rng.below(6) {
        0 => return Case::whole("a random stream, asked for", &plan.build(), Answering::Verified, rng),
        1 => {
            let rule = rng.pick(rules);
            let spot = *rng.pick(&rule.spots);
            rule.case(spot, &plan, Answering::AllYes, rng)
        }
        2 => damage::several(&plan.build(), rng),
        _ => Case::whole("a random stream", &plan.build(), Answering::Verified, rng),
    };
    case.label += ", another URI";
    let uri = other_uri(&case.uri, rng);
    case.asked_by(uri)
}
