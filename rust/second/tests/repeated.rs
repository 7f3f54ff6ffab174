//! Names that come in several lines of a head: the examples of request #102, and random heads whose signing string, values and
//! counts are worked out here in another way. Signatures are stand-ins, since the readings ask about them and never check them.

mod common;

use common::ring;
use second::calls::{Calls, Holds, Word};
use second::event::{Event, Refusal};
use second::head::{self, Head};
use second::plain;
use second::reader::Reader;

/// What the string has before the lines of further names.
const FRONT: &str =
    "(response-status): 200\n(created): 1\nx-ouinet-version: 4\nx-ouinet-uri: u\nx-ouinet-injection: id=a,ts=1";
/// How many fields a head has beside the ones that are given.
const OWN_FIELDS: usize = 6;

/// A head with these lines, the CR LF of each included, and these names listed beside the needed ones.
fn head_with(lines: &str, listed: &str) -> String {
    common::head_with(" u", lines, listed)
}

/// The good head with these lines and listed names.
fn good(lines: &str, listed: &str) -> Head {
    let head = head::judge(head_with(lines, listed).as_bytes(), &ring(), b"u");
    head.unwrap_or_else(|refusal| panic!("{lines:?}, {listed:?}: {refusal}"))
}

/// What the string has behind its front.
fn signed_lines(lines: &str, listed: &str) -> String {
    let head = good(lines, listed);
    let string = String::from_utf8(head.signing_string).expect("text");
    string.strip_prefix(FRONT).unwrap_or_else(|| panic!("{string:?}")).to_string()
}

/// The refusal of a head with these lines, which the plain reading and the piecewise reader must agree on.
fn refusal(lines: &str, listed: &str) -> Refusal {
    let stream = head_with(lines, listed).into_bytes();
    let refused = head::judge(&stream, &ring(), b"u").expect_err(lines);
    let reading = plain::read(&stream, &ring(), b"u", &[], false);
    assert_eq!(reading.events.last().expect("an event").event, Event::Refused(refused));
    let mut reader = Reader::new(ring(), b"u".to_vec());
    let told: Vec<Event> = stream.chunks(1).filter_map(|byte| reader.feed(byte).expect("in time").1).collect();
    assert_eq!(told, [Event::Refused(refused)]);
    refused
}

/// Refused with 3 at the whole length, whether the name is listed or not.
fn doubled(name: &str, lines: &str) {
    for listed in ["", name] {
        let whole = head_with(lines, listed).len();
        assert_eq!(refusal(lines, listed), Refusal::head(whole), "{lines:?}, {listed:?}");
    }
}

#[test]
fn point_1_protected_names() {
    for name in ["X-Ouinet-A", "x-ouinet-a", "X-OUINET-A", "X-Ouinet-Sig1", "x-ouinet-", "Content-Length"] {
        doubled(name, &format!("{name}: 1\r\n{name}: 1\r\n"));
        doubled(name, &format!("{}:\r\nVary: a\r\n{}: 2\r\n", name.to_uppercase(), name.to_lowercase()));
    }
    // One more of each that the head has already
    for name in [
        "X-Ouinet-Version",
        "X-Ouinet-URI",
        "X-Ouinet-Injection",
        "X-Ouinet-BSigs",
        "X-Ouinet-Sig0",
        "Transfer-Encoding",
    ] {
        doubled(name, &format!("{}: chunked\r\n", name.to_uppercase()));
    }
    doubled("transfer-encoding", "tRANSFER-eNCODING: chunked\r\n");
}

#[test]
fn point_1_names_that_are_almost_protected() {
    for name in [
        "Content-Length-A",
        "Content-Lengt",
        "A-Content-Length",
        "Transfer-Encoding-A",
        "Transfer-Encodin",
        "X-Ouinet",
        "X-Ouine-",
        "X-Ouinet_",
        "XX-Ouinet-A",
        "X_Ouinet-A",
        "Vary",
        "~",
    ] {
        assert!(head::may_repeat(name.as_bytes()), "{name}");
        let lines = format!("{name}: 1\r\n{}: 2\r\n", name.to_lowercase());
        assert_eq!(signed_lines(&lines, name), format!("\n{}: 1, 2", name.to_lowercase()));
        assert_eq!(signed_lines(&lines, ""), "");
        assert_eq!(good(&lines, name).signed(name.as_bytes()).expect("listed").count, 2);
        assert_eq!(good(&lines, "").signed(name.as_bytes()), None);
    }
}

#[test]
fn point_2_trimmed_values_are_joined() {
    for (lines, joined) in [
        ("Vary:\r\nVary: b\r\nVary:\r\n", ", b, "),
        ("Vary: a\r\nVary: b\r\n", "a, b"),
        ("Vary: b\r\nVary: a\r\n", "b, a"),
        ("Vary:\r\nVary:\r\n", ", "),
        ("Vary: \t \r\nVary:   \r\nVary:\t\r\n", ", , "),
        ("Vary:  a \t\r\nVary:\tb c\t \r\n", "a, b c"),
        ("Vary: a, b\r\nVary: c,\r\nVary: ,\r\n", "a, b, c,, ,"),
        ("Vary: a\r\nVary: a\r\n", "a, a"),
        ("vARY: 1\r\nDate: x\r\nVary: 2\r\nA: y\r\nvary: 3\r\n", "1, 2, 3"),
        ("Vary: alone\r\n", "alone"),
    ] {
        assert_eq!(signed_lines(lines, "vary"), format!("\nvary: {joined}"), "{lines:?}");
        assert_eq!(signed_lines(lines, "VARY"), format!("\nvary: {joined}"), "{lines:?}");
    }
    // Each name in the list's order, the values in the head's
    let lines = "Via: 1\r\nVary: a\r\nVia: 2\r\nDate: d\r\nVary: b\r\n";
    assert_eq!(signed_lines(lines, "vary date via"), "\nvary: a, b\ndate: d\nvia: 1, 2");
    assert_eq!(signed_lines(lines, "via"), "\nvia: 1, 2");
}

/// A list of calls up to the accepted head, or with no up to refusal 10. Before that nothing is handed out.
fn calls(stream: &[u8], names: &[&str], yes: bool) -> Calls {
    let mut calls = Calls::new();
    for piece in [&stream[..40], &stream[40..]] {
        for name in names {
            assert_eq!(
                (calls.value(32_768, name.as_bytes()), calls.value_count(32_768, name.as_bytes())),
                (&b""[..], 0)
            );
        }
        calls.feed(Holds::ENOUGH, &ring(), b"u", piece);
    }
    for name in names {
        assert_eq!((calls.value(32_768, name.as_bytes()), calls.value_count(32_768, name.as_bytes())), (&b""[..], 0));
    }
    let word = calls.answer(Holds::ENOUGH, yes).word;
    let due = if yes { Word::HeadAccepted { status: 200 } } else { Word::Refused(Refusal::plain(10)) };
    assert_eq!(word, due);
    calls
}

#[test]
fn point_3_values_and_counts() {
    let lines = "Vary:\r\nVary: b, c\r\nVary:\r\nEmpty:\r\nVia: 1, 2\r\nVia: 3\r\nAge: 1\r\nAge: 2\r\n";
    let stream = head_with(lines, "vary empty via").into_bytes();
    // Name, value, lines
    let table = [
        ("vary", "", 3),
        ("VaRy", "", 3),
        ("via", "1, 2", 2),
        ("empty", "", 1),
        ("x-ouinet-uri", "u", 1),
        ("Age", "", 0),
        ("X-Ouinet-Sig0", "", 0),
        ("Transfer-Encoding", "", 0),
        ("(created)", "", 0),
        ("(response-status)", "", 0),
        ("nowhere", "", 0),
        ("var", "", 0),
        ("vary ", "", 0),
        ("", "", 0),
    ];
    let names: Vec<&str> = table.iter().map(|(name, ..)| *name).collect();
    let mut accepted = calls(&stream, &names, true);
    let check = |calls: &Calls| {
        for (name, value, count) in table {
            let name = name.as_bytes();
            assert_eq!((calls.value(32_768, name), calls.value_count(32_768, name)), (value.as_bytes(), count));
            assert_eq!((calls.value(32_767, name), calls.value_count(32_767, name)), (&b""[..], 0));
            assert_eq!((calls.value(0, name), calls.value_count(0, name)), (&b""[..], 0));
        }
    };
    check(&accepted);
    // For good, after the last event too
    accepted.feed(Holds::ENOUGH, &ring(), b"u", b"0\r\n");
    check(&accepted);
    accepted.feed(Holds::ENOUGH, &ring(), b"u", b"\r\n");
    check(&accepted);
    let refused = calls(&stream, &names, false);
    for name in names {
        assert_eq!(refused.value_count(32_768, name.as_bytes()), 0);
    }
}

#[test]
fn point_4_lines_are_counted_and_names_are_listed_once() {
    let vary = |count: usize| "Vary: x\r\n".repeat(count);
    let most = 128 - OWN_FIELDS;
    assert_eq!(good(&vary(most), "vary").signed(b"vary").expect("listed").count, most);
    assert_eq!(signed_lines(&vary(most), "vary").len(), "\nvary: ".len() + most + 2 * (most - 1));
    for listed in ["", "vary"] {
        let whole = head_with(&vary(most + 1), listed).len();
        assert_eq!(refusal(&vary(most + 1), listed), Refusal::head(whole));
    }
    for listed in ["vary vary", "vary VARY", "Vary date vary"] {
        assert_eq!(refusal(&format!("{}Date: d\r\n", vary(2)), listed), Refusal::plain(4));
        assert_eq!(refusal("Vary: a\r\nDate: d\r\n", listed), Refusal::plain(4));
    }
}

#[test]
fn point_5_fields_of_other_rules() {
    assert_eq!(signed_lines("Content-Range: a\r\nContent-Range: b\r\n", "content-range"), "\ncontent-range: a, b");
    assert_eq!(signed_lines("Digest: a\r\nDigest: b\r\n", "digest"), "\ndigest: a, b");
    doubled("X-Ouinet-HTTP-Status", "X-Ouinet-HTTP-Status: 200\r\nX-Ouinet-HTTP-Status: 200\r\n");
    // A length is refused with 4 where it stands once
    assert_eq!(refusal("Content-Length: 5\r\n", ""), Refusal::plain(4));
}

/// The order: bad text with its place, then 3 at the whole length, then the rules of 4 and 5.
#[test]
fn the_order_of_refusals() {
    let front = head_with("", "").find("Transfer").expect("a line");
    for before in
        ["Vary: a\r\nVary: b\r\n", "X-Ouinet-A:\r\nx-ouinet-a:\r\n", "Content-Length: 1\r\nContent-Length: 1\r\n"]
    {
        let at = front + before.len() + 1;
        assert_eq!(refusal(&format!("{before}A b: c\r\n"), ""), Refusal::head(at), "{before:?}");
    }
    let at_first = format!("A b: c\r\n{}", "Vary:\r\n".repeat(head::MOST_FIELDS));
    assert_eq!(refusal(&at_first, ""), Refusal::head(front + 1));
    let other = |lines: &str, from: &str, to: &str| {
        let text = head_with(lines, "").replacen(from, to, 1);
        head::judge(text.as_bytes(), &ring(), b"u").expect_err(lines)
    };
    let repeated = "Vary: a\r\nVary: b\r\n";
    let twice = "x-ouinet-:\r\nx-ouinet-:\r\n";
    for (from, to, number) in [("Version: 4", "Version: 5", 5), ("200", "404", 4), ("id=a", "id=", 4)] {
        assert_eq!(other(repeated, from, to), Refusal::plain(number));
        assert_eq!(other(twice, from, to).number, 3);
    }
    assert_eq!(head::judge(head_with(repeated, "").as_bytes(), &[], b"u"), Err(Refusal::plain(12)));
}

// ---- random heads

/// A seeded generator; enough for drawing heads.
struct Draw(u64);

impl Draw {
    fn below(&mut self, bound: usize) -> usize {
        self.0 = self.0.wrapping_mul(6_364_136_223_846_793_005).wrapping_add(1_442_695_040_888_963_407);
        ((self.0 >> 33) % bound as u64) as usize
    }

    fn pick<'a>(&mut self, from: &[&'a str]) -> &'a str {
        from[self.below(from.len())]
    }
}

const NAMES: [&str; 6] = ["a", "Vary", "vARY", "Via", "VIA", "X-Ouinet"];
const VALUES: [&str; 7] = ["", "", "b", "c, d", ",", "e f", "\u{e9}"];
const BLANKS: [&str; 4] = ["", " ", "\t", " \t "];

/// The values of a name's lines, as they were drawn.
fn values_of(lines: &[(&str, &str)], name: &str) -> Vec<String> {
    let same = lines.iter().filter(|(other, _)| other.to_lowercase() == name.to_lowercase());
    same.map(|(_, value)| value.to_string()).collect()
}

#[test]
fn random_heads() {
    let (mut draw, mut repeated) = (Draw(1), 0);
    for _ in 0..1000 {
        let count = draw.below(head::MOST_FIELDS - OWN_FIELDS + 1);
        let lines: Vec<(&str, &str)> = (0..count).map(|_| (draw.pick(&NAMES), draw.pick(&VALUES))).collect();
        let text: String = lines
            .iter()
            .map(|(name, value)| format!("{name}:{}{value}{}\r\n", draw.pick(&BLANKS), draw.pick(&BLANKS)))
            .collect();
        let mut listed = Vec::new();
        for name in ["vary", "VIA", "A", "x-ouinet"] {
            if draw.below(3) > 0 && !values_of(&lines, name).is_empty() {
                listed.push(name);
            }
        }
        let mut due = FRONT.to_string();
        for name in &listed {
            due += &format!("\n{}: {}", name.to_lowercase(), values_of(&lines, name).join(", "));
        }
        let bytes = head_with(&text, &listed.join(" "));
        let head = head::judge(bytes.as_bytes(), &ring(), b"u").expect("a good head");
        assert_eq!(head.signing_string, due.as_bytes(), "{bytes}");
        assert!(head.signing_string.len() <= bytes.len());
        for name in listed {
            let (values, field) = (values_of(&lines, name), head.signed(name.as_bytes()).expect("listed"));
            assert_eq!((&bytes[field.value.clone()], field.count), (&values[0][..], values.len()));
            repeated += usize::from(values.len() > 1);
        }
    }
    assert!(repeated > 1000, "only {repeated} listed names had several lines");
}
