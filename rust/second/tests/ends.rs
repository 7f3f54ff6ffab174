//! The end of the show: the examples of request #101, read by the plain reading, the piecewise reader and the list of calls, which must
//! agree. Signatures are stand-ins, since the readings ask about them and never check them.

mod common;

use common::ways::{self, by_reader};
use common::{example, example_lines, head_with, ring, sig, signature, EXAMPLE_URI, KEY, NEEDED};
use second::calls::{Calls, Contents, Holds, Outcome, Word};
use second::event::{Event, Question, Refusal};
use second::plain;
use second::ring::Record;
use second::sha256::sha256;

const ADDED: &str = "digest x-ouinet-data-size";
/// What the string has between `(created)` and the two lines that are added, with nothing else listed.
const SIGNED: &str = "\nx-ouinet-version: 4\nx-ouinet-uri: u\nx-ouinet-injection: id=a,ts=1";
/// A key that is not the head's, and its 32 bytes.
const OTHER_KEY: &str = "AQEBAQEBAQEBAQEBAQEBAQEBAQEBAQEBAQEBAQEBAQE=";
const OTHER_BYTES: [u8; 32] = [1; 32];
const HELLO: &[u8] = b"Hello world!";
const HELLO_DIGEST: &str = "SHA-256=wFNeS+K3n/2TKRMFQ2v4iTFOSj+uwF7P/Lt98xrZ5Ro=";

fn base64(bytes: &[u8]) -> String {
    let letters = b"ABCDEFGHIJKLMNOPQRSTUVWXYZabcdefghijklmnopqrstuvwxyz0123456789+/";
    let bit = |place: usize| bytes.get(place / 8).map_or(0, |byte| usize::from(byte >> (7 - place % 8) & 1));
    let letter = |number: usize| (0..6).fold(0, |value, place| value << 1 | bit(6 * number + place));
    let count = (bytes.len() * 8).div_ceil(6);
    let mut out: String = (0..count).map(|number| char::from(letters[letter(number)])).collect();
    while !out.len().is_multiple_of(4) {
        out.push('=');
    }
    out
}

fn digest_of(body: &[u8]) -> String {
    format!("SHA-256={}", base64(&sha256([body])))
}

/// A show whose end can be changed. What stands in the head and in the trailer are lines, the CR LF of each included.
#[derive(Clone)]
struct Show {
    listed: String,
    in_head: String,
    block_size: usize,
    body: Vec<u8>,
    trailer: String,
    ring: Vec<Record>,
}

impl Show {
    /// Without any of the three.
    fn bare() -> Self {
        Show {
            listed: String::new(),
            in_head: String::new(),
            block_size: 5,
            body: HELLO.to_vec(),
            trailer: String::new(),
            ring: ring(),
        }
    }

    /// With these lines in the trailer.
    fn ending(trailer: &str) -> Self {
        Show { trailer: trailer.to_string(), ..Show::bare() }
    }

    /// The same lines in the head, and nothing in the trailer.
    fn heading(lines: &str) -> Self {
        Show { in_head: lines.to_string(), ..Show::bare() }
    }

    fn stream(&self) -> Vec<u8> {
        let head = head_with(" u", &self.in_head, &self.listed);
        let mut stream = head.replace("size=5", &format!("size={}", self.block_size)).into_bytes();
        let mut extension = String::new();
        for block in self.body.chunks(self.block_size) {
            stream.extend(format!("{:x}{extension}\r\n", block.len()).bytes());
            stream.extend([block, b"\r\n"].concat());
            extension = format!(";ouisig={}", signature());
        }
        stream.extend(format!("0{extension}\r\n{}\r\n", self.trailer).bytes());
        stream
    }

    fn blocks(&self) -> usize {
        self.body.len().div_ceil(self.block_size)
    }

    /// How many bytes come before the trailer.
    fn front(&self) -> usize {
        self.stream().len() - self.trailer.len() - 2
    }

    /// The events with these answers, by all three ways of reading.
    fn events(&self, answers: &[bool]) -> Vec<Event> {
        ways::events(&self.stream(), &self.ring, b"u", answers)
    }

    /// What comes after the last block, all answers yes.
    fn end(&self) -> Vec<Event> {
        let events = self.events(&vec![true; self.blocks() + 2]);
        events[2 + 2 * self.blocks()..].to_vec()
    }

    /// It is closed or refused, and nothing is asked.
    fn is(&self, last: &str) {
        let told: Vec<String> = self.end().iter().map(Event::to_string).collect();
        assert_eq!(told, [last], "{:?}, {:?}", self.in_head, self.trailer);
    }

    /// It is asked about and complete; gives the question.
    fn is_complete(&self) -> Question {
        match &self.end()[..] {
            [Event::Question(question), Event::Complete { total }] if *total == self.body.len() as u64 => {
                question.clone()
            }
            other => panic!("{:?}, {:?}: {other:?}", self.in_head, self.trailer),
        }
    }

    fn message(&self) -> String {
        String::from_utf8(self.is_complete().message).expect("text")
    }
}

/// The lines of the three for the show `Hello world!`: digest, size, Sig1.
fn three() -> [String; 3] {
    lines(HELLO_DIGEST, "12", &sig(KEY, "1", &format!("{NEEDED} {ADDED}")))
}

fn lines(digest: &str, size: &str, sig1: &str) -> [String; 3] {
    [format!("Digest: {digest}\r\n"), format!("X-Ouinet-Data-Size: {size}\r\n"), format!("X-Ouinet-Sig1: {sig1}\r\n")]
}

/// The show with one of the three given this value, in the head and in the trailer.
fn with_value(number: usize, value: &str) -> [Show; 2] {
    let mut all = three();
    let name = all[number].split(':').next().expect("a name").to_string();
    all[number] = format!("{name}: {value}\r\n");
    [Show::ending(&all.concat()), Show::heading(&all.concat())]
}

fn both_are(number: usize, value: &str, last: &str) {
    with_value(number, value).iter().for_each(|show| show.is(last));
}

fn both_are_complete(number: usize, value: &str) {
    with_value(number, value).iter().for_each(|show| drop(show.is_complete()));
}

// ---- the example

/// Paper 01's example with the three.
#[test]
fn the_example() {
    let list = format!("{NEEDED} date content-type digest x-Ouinet-data-size");
    let trailer = lines(HELLO_DIGEST, "12", &sig(KEY, "1584748800", &list)).concat();
    let (stream, uri) = (example(&trailer), EXAMPLE_URI);
    let reading = plain::read(&stream, &ring(), uri, &[true; 5], true);
    let told: Vec<String> = reading.events.iter().map(|placed| placed.event.to_string()).collect();
    assert_eq!(told, example_lines(&["question 303", "complete 12"]));
    assert!(reading.events[8..].iter().all(|placed| placed.place == stream.len()));
    let Event::Question(question) = &reading.events[8].event else { panic!("no question") };
    let message = format!(
        "(response-status): 200\n(created): 1584748800\nx-ouinet-version: 4\nx-ouinet-uri: https://example.com/hello\n\
         x-ouinet-injection: id=qwertyuiop-12345,ts=1584748800\ndate: Sat, 21 Mar 2020 00:00:00 GMT\n\
         content-type: text/plain\ndigest: {HELLO_DIGEST}\nx-ouinet-data-size: 12"
    );
    assert_eq!(question.message, message.as_bytes());
    // Cut short at each byte of the trailer, it is neither closed nor complete
    for length in stream.len() - trailer.len() - 2..stream.len() {
        let told = plain::read(&stream[..length], &ring(), uri, &[true; 5], true).events;
        assert_eq!(told.last().expect("an event").event, Event::Refused(Refusal::plain(11)));
    }
    // The stream is read no further
    let more = [&stream[..], b"more"].concat();
    assert_eq!(plain::read(&more, &ring(), uri, &[true; 5], true).events, reading.events);
}

// ---- the points

#[test]
fn point_1_the_key() {
    let trusted = |key| Record { key, first: 0, last: u64::MAX };
    let other = sig(OTHER_KEY, "1", &format!("{NEEDED} {ADDED}"));
    for ring in [vec![trusted([0; 32]), trusted(OTHER_BYTES)], vec![trusted(OTHER_BYTES), trusted([0; 32])], ring()] {
        for show in with_value(2, &other) {
            Show { ring: ring.clone(), ..show }.is("refused 12");
        }
        // It stands after 15, 14 and 13
        for (digest, size, last) in [
            (digest_of(b"Hello"), "12", "refused 15"),
            (digest_of(b"Hello"), "13", "refused 14"),
            (HELLO_DIGEST.to_string(), "012", "refused 13"),
        ] {
            let show = Show::ending(&lines(&digest, size, &other).concat());
            Show { ring: ring.clone(), ..show }.is(last);
        }
    }
    // The record is the head's
    let late = Record { key: [0; 32], first: 2, last: 9 };
    let show = Show { ring: vec![late, trusted(OTHER_BYTES), trusted([0; 32])], ..Show::ending(&three().concat()) };
    assert_eq!(show.is_complete().record, 2);
}

#[test]
fn point_2_created() {
    for created in ["1", "0", "7", "999999999999"] {
        let value = sig(KEY, created, &format!("{NEEDED} {ADDED}"));
        for show in with_value(2, &value) {
            let due = format!(
                "(response-status): 200\n(created): {created}{SIGNED}\ndigest: {HELLO_DIGEST}\nx-ouinet-data-size: 12"
            );
            assert_eq!(show.message(), due);
        }
    }
    for created in ["", "00", "01", "1000000000000", "\"1\"", "1 ", " 1", "-1"] {
        both_are(2, &sig(KEY, created, &format!("{NEEDED} {ADDED}")), "refused 13");
    }
}

#[test]
fn point_3_the_head_is_judged_at_the_end() {
    let show = Show::heading("X-Ouinet-Sig1: x\r\n");
    let told: Vec<String> = show.events(&[true; 5]).iter().map(Event::to_string).collect();
    let question = format!("question {}", "(response-status): 200\n(created): 1".len() + SIGNED.len());
    let blocks = ["question 68", "block 0 5", "question 68", "block 5 5", "question 69", "block 10 2"];
    assert_eq!(told, [&[&question[..], "head 200"], &blocks[..], &["refused 13"]].concat());
    Show::heading(&three().concat()).is_complete();
    // All mixes of head and trailer ask the same
    let message = Show::ending(&three().concat()).message();
    for mix in 0..8 {
        let (mut show, parts) = (Show::bare(), three());
        for (number, line) in parts.iter().enumerate() {
            if mix >> number & 1 == 1 { &mut show.in_head } else { &mut show.trailer }.push_str(line);
        }
        assert_eq!(show.message(), message);
        show.trailer = format!("A: b\r\n{}c:\r\n", show.trailer);
        assert_eq!(show.message(), message);
    }
}

#[test]
fn point_4_none_goes_by_name() {
    for line in ["Digest: MD5=x\r\n", "digest:\r\n", "X-Ouinet-Data-Size:\r\n", "x-OUINET-sig1: x\r\n"] {
        Show::ending(line).is("refused 13");
        Show::heading(line).is("refused 13");
    }
    for line in [
        "",
        "Digest2: MD5=x\r\n",
        "X-Digest: x\r\n",
        "X-Ouinet-Data-Siz: 1\r\n",
        "X-Ouinet-Sig: x\r\n",
        "X-Ouinet-Sig11: x\r\n",
        "Content-Digest: x\r\n",
        "A: Digest: x\r\n",
        "Trailer: Digest, X-Ouinet-Data-Size, X-Ouinet-Sig1\r\n",
    ] {
        Show::ending(line).is("closed 12");
        Show::heading(line).is("closed 12");
    }
    // Some, but not all
    for given in 1..7 {
        let some: String =
            (0..3).filter(|number| given >> number & 1 == 1).map(|number| three()[number].clone()).collect();
        Show::ending(&some).is("refused 13");
        Show::heading(&some).is("refused 13");
    }
}

#[test]
fn point_5_given_twice() {
    let all = three().concat();
    for line in three() {
        let other = format!("{}: x\r\n", line.split(':').next().expect("a name").to_uppercase());
        for second in [&line, &other] {
            Show::ending(&format!("{all}{second}")).is("refused 13");
            Show::ending(&format!("{second}{all}")).is("refused 13");
            Show { in_head: second.to_string(), ..Show::ending(&all) }.is("refused 13");
            Show { trailer: second.to_string(), ..Show::heading(&all) }.is("refused 13");
        }
        // Twice, and the other two not at all
        Show::ending(&line.repeat(2)).is("refused 13");
    }
    // In the head: those of ours are 3, the digest is 13, signed and joined as well
    for number in [1, 2] {
        let head = format!("{all}{}", three()[number]);
        let told = Show::heading(&head).events(&[]);
        assert_eq!(told, [Event::Refused(Refusal::head(head_with(" u", &head, "").len()))]);
    }
    let twice = format!("{all}{}", three()[0]);
    Show::heading(&twice).is("refused 13");
    Show { listed: "digest".to_string(), ..Show::heading(&twice) }.is("refused 13");
}

#[test]
fn point_6_names_in_the_list_of_the_head() {
    for listed in
        ["digest", "x-ouinet-data-size", "Digest", "X-Ouinet-Data-Size x-ouinet-sig1", "digest x-ouinet-data-size"]
    {
        for list in [format!("{NEEDED} {listed} {ADDED}"), format!("{NEEDED} {ADDED}"), format!("{NEEDED} {listed}")] {
            let lines = lines(HELLO_DIGEST, "12", &sig(KEY, "1", &list)).concat();
            Show { listed: listed.to_string(), ..Show::heading(&lines) }.is("refused 13");
        }
    }
    let value = sig(KEY, "1", &format!("{NEEDED} x-ouinet-sig1 {ADDED}"));
    let show =
        Show { listed: "X-Ouinet-Sig1".to_string(), ..Show::heading(&lines(HELLO_DIGEST, "12", &value).concat()) };
    let due = format!("{SIGNED}\nx-ouinet-sig1: {value}\ndigest: {HELLO_DIGEST}\nx-ouinet-data-size: 12");
    assert_eq!(show.message(), format!("(response-status): 200\n(created): 1{due}"));
}

#[test]
fn point_7_the_list() {
    let good = [
        format!("{NEEDED} {ADDED}"),
        format!("{NEEDED} DIGEST X-Ouinet-Data-Size"),
        format!("{NEEDED} {ADDED}").to_uppercase(),
    ];
    good.iter().for_each(|list| both_are_complete(2, &sig(KEY, "1", list)));
    let names: Vec<&str> = NEEDED.split(' ').collect();
    let swapped = [names[0], names[1], names[3], names[2], names[4]].join(" ");
    for list in [
        NEEDED.to_string(),
        format!("{NEEDED} x-ouinet-data-size digest"),
        format!("{NEEDED} digest"),
        format!("{NEEDED} x-ouinet-data-size"),
        format!("{NEEDED} transfer-encoding {ADDED}"),
        format!("{NEEDED} {ADDED} transfer-encoding"),
        format!("{NEEDED} {ADDED} {ADDED}"),
        format!("{NEEDED}  {ADDED}"),
        format!("{NEEDED} digest  x-ouinet-data-size"),
        format!(" {NEEDED} {ADDED}"),
        format!("{NEEDED} {ADDED} "),
        format!("{NEEDED}\t{ADDED}"),
        format!("{ADDED} {NEEDED}"),
        format!("{swapped} {ADDED}"),
        format!("{} {ADDED}", names[1..].join(" ")),
        format!("{} {ADDED}", names[..4].join(" ")),
        format!("{NEEDED} digest x-ouinet-data-siz"),
        ADDED.to_string(),
        String::new(),
    ] {
        both_are(2, &sig(KEY, "1", &list), "refused 13");
    }
}

/// 32 names in the head's list, and so 34 in Sig1's.
#[test]
fn point_7_as_many_names_as_can_be() {
    let names: Vec<String> = (5..32).map(|number| format!("n{number}")).collect();
    let listed = names.join(" ");
    let in_head: String = names.iter().map(|name| format!("{name}: {name}\r\n")).collect();
    let list = |added: &str| sig(KEY, "1", &format!("{NEEDED} {listed}{added}"));
    let show = |added: &str| Show {
        listed: listed.clone(),
        in_head: in_head.clone(),
        ..Show::ending(&lines(HELLO_DIGEST, "12", &list(added)).concat())
    };
    assert_eq!(show(" digest x-ouinet-data-size").message().lines().count(), 34);
    show(" digest").is("refused 13");
    show(" digest x-ouinet-data-size n32").is("refused 13");
}

#[test]
fn point_8_the_digest() {
    let own = HELLO_DIGEST.strip_prefix("SHA-256=").expect("a digest");
    both_are_complete(0, HELLO_DIGEST);
    both_are_complete(0, &format!(" \t{HELLO_DIGEST}\t "));
    for value in [
        format!("sha-256={own}"),
        format!("Sha-256={own}"),
        format!("SHA-256={own}, MD5=x"),
        format!("MD5=x, SHA-256={own}"),
        format!("SHA-256={own},SHA-256={own}"),
        format!("SHA-256 ={own}"),
        format!("SHA-256= {own}"),
        format!("SHA-256=\"{own}\""),
        format!("SHA-256:{own}"),
        format!("SHA-512={own}"),
        format!("SHA256={own}"),
        own.to_string(),
        String::new(),
        "SHA-256=".to_string(),
        format!("SHA-256={}", &own[..43]),
        format!("SHA-256={}", &own[1..]),
        format!("SHA-256={own}="),
        format!("SHA-256=AAAA{own}"),
        // Spare bits: the last letter is `o`
        format!("SHA-256={}p=", &own[..42]),
        format!("SHA-256={}q=", &own[..42]),
        format!("SHA-256={}r=", &own[..42]),
        format!("SHA-256={}-{}", &own[..4], &own[5..]),
        format!("SHA-256={}=", own.replace('=', "A")),
        format!("SHA-256={}", "c0535e4be2b79ffd93291305436bf889314e4a3faec05ecffcbb7df31ad9e51a"),
    ] {
        both_are(0, &value, "refused 13");
    }
    // Good text, but another digest
    both_are(0, &format!("SHA-256={}s=", &own[..42]), "refused 15");
    both_are(0, &format!("SHA-256={}", own.to_lowercase()), "refused 15");
}

#[test]
fn point_9_the_size() {
    both_are_complete(1, "12");
    both_are_complete(1, "\t12 ");
    for size in ["0", "1", "11", "13", "120", "4294967308", "4294967296", "9999999999"] {
        both_are(1, size, "refused 14");
    }
    for size in [
        "",
        "00",
        "012",
        "12345678901",
        "42949672960",
        "00000000012",
        "+12",
        "-12",
        "12.0",
        "0xc",
        "12 ,",
        "1 2",
        "\"12\"",
        "12x",
    ] {
        both_are(1, size, "refused 13");
    }
}

#[test]
fn point_10_what_the_trailer_says_of_other_names() {
    let due = Show::ending(&three().concat()).message();
    for line in [
        "X-Ouinet-URI: x\r\n",
        "X-Ouinet-Version: 5\r\n",
        "x-ouinet-injection: x\r\n",
        "X-Ouinet-Sig0: x\r\nX-Ouinet-Sig0: x\r\n",
        "X-Ouinet-BSigs: x\r\nContent-Length: 5\r\n",
    ] {
        assert_eq!(Show::ending(&format!("{}{line}", three().concat())).message(), due);
        assert_eq!(Show { trailer: line.to_string(), ..Show::heading(&three().concat()) }.message(), due);
    }
    // Names in any case, blanks around the values
    let [digest, size, sig1] = three();
    let odd = format!(
        "{}{}{}",
        digest.replace("Digest: ", "dIGEST:").replace("\r\n", " \t\r\n"),
        size.replace("X-Ouinet-Data-Size: ", "x-ouinet-data-size:\t "),
        sig1.replace("X-Ouinet-Sig1:", "X-OUINET-SIG1:  "),
    );
    assert_eq!(Show::ending(&odd).message(), due);
    assert_eq!(Show::heading(&odd).message(), due);
    // Trailer text goes first, and its place is told
    let bad = format!("{}A b\r\n", three().concat());
    Show::ending(&bad).is(&format!("refused 6 at {}", bad.len() - 4));
    Show::ending("Digest: x\r\nA b\r\n").is("refused 6 at 12");
    Show { trailer: "A b\r\n".to_string(), ..Show::heading("Digest: x\r\n") }.is("refused 6 at 1");
}

/// A repeated field of the list is joined in Sig1's string too, and by the head's lines alone.
#[test]
fn point_10_repeated_fields() {
    let value = sig(KEY, "1", &format!("{NEEDED} Vary {ADDED}"));
    let trailer = format!("{}Vary: c\r\n", lines(HELLO_DIGEST, "12", &value).concat());
    let show = Show {
        listed: "vary".to_string(),
        in_head: "Vary: a\r\nVary:\r\nvary: b\r\n".to_string(),
        ..Show::ending(&trailer)
    };
    let due = format!(
        "(response-status): 200\n(created): 1{SIGNED}\nvary: a, , b\ndigest: {HELLO_DIGEST}\nx-ouinet-data-size: 12"
    );
    assert_eq!(show.message(), due);
}

/// A list of calls that has come to the show's last question.
fn asked(show: &Show) -> Calls {
    let (mut calls, stream) = (Calls::new(), show.stream());
    for _ in 0..=show.blocks() {
        calls.feed(Holds::ENOUGH, &show.ring, b"u", &stream[calls.bytes().len()..]);
        calls.answer(Holds::ENOUGH, true);
    }
    calls.feed(Holds::ENOUGH, &show.ring, b"u", &stream[calls.bytes().len()..]);
    assert_eq!(calls.bytes().len(), stream.len());
    calls
}

#[test]
fn point_11_what_is_handed_out() {
    let mut calls = asked(&Show::heading(&three().concat()));
    let value = |calls: &Calls, name: &[u8]| (calls.value(32_768, name).to_vec(), calls.value_count(32_768, name));
    for _ in 0..2 {
        for name in ["digest", "Digest", "x-ouinet-data-size", "x-ouinet-sig1"] {
            assert_eq!(value(&calls, name.as_bytes()), (Vec::new(), 0));
        }
        assert_eq!(value(&calls, b"x-ouinet-uri"), (b"u".to_vec(), 1));
        assert_eq!(calls.block(65_536), b"");
        calls.answer(Holds::ENOUGH, true);
    }
    // Listed in the head they are handed out, although the end is then refused
    let show = Show { listed: "digest".to_string(), ..Show::heading(&three().concat()) };
    assert_eq!(value(&asked(&show), b"DIGEST"), (HELLO_DIGEST.as_bytes().to_vec(), 1));
}

/// The string is never longer than the head, though two of its lines may come from the trailer.
#[test]
fn point_12_the_length_of_the_string() {
    let fill = "x".repeat(40_000);
    for in_trailer in [true, false] {
        let value = sig(KEY, "999999999999", &format!("{NEEDED} f {ADDED}"));
        let last = lines(HELLO_DIGEST, "12", &value).concat();
        let with = |length: usize| {
            let field = format!("f:{}\r\n", &fill[..length]);
            let (in_head, trailer) = if in_trailer { (field, last.clone()) } else { (field + &last, String::new()) };
            Show { listed: "f".to_string(), in_head, trailer, ..Show::bare() }
        };
        let lacking = 32_768 - head_with(" u", &with(0).in_head, "f").len();
        let show = with(lacking);
        let head = head_with(" u", &show.in_head, "f").len();
        assert_eq!(head, 32_768);
        assert!(show.is_complete().message.len() < head);
    }
}

#[test]
fn point_13_an_empty_body() {
    let value = sig(KEY, "1", &format!("{NEEDED} {ADDED}"));
    let empty = "SHA-256=47DEQpj8HBSa+/TImW+5JCeuQeRkm5NMpJWZG3hSuFU=";
    assert_eq!(digest_of(b""), empty);
    let show =
        |digest: &str, size: &str| Show { body: Vec::new(), ..Show::ending(&lines(digest, size, &value).concat()) };
    show(empty, "0").is_complete();
    show(empty, "1").is("refused 14");
    show(HELLO_DIGEST, "0").is("refused 15");
    Show { trailer: String::new(), in_head: show(empty, "0").trailer, ..show(empty, "0") }.is_complete();
}

#[test]
fn point_14_blocks_of_any_size() {
    let value = sig(KEY, "1", &format!("{NEEDED} {ADDED}"));
    let body: Vec<u8> = (0..400_u32).map(|place| (place * 31 % 251) as u8).collect();
    for block_size in [1, 5, 55, 63, 64, 65, 127, 128, 1000] {
        for length in [1, 55, 56, 63, 64, 65, 119, 120, 128, 400] {
            let body = body[..length].to_vec();
            let lines = lines(&digest_of(&body), &length.to_string(), &value).concat();
            let show = Show { block_size, body, ..Show::ending(&lines) };
            let last = plain::read(&show.stream(), &show.ring, b"u", &[true; 402], true).events.pop();
            assert_eq!(last.map(|placed| placed.event), Some(Event::Complete { total: length as u64 }));
            let told = by_reader(&show.stream(), &show.ring, b"u", &[true; 402], 61);
            assert_eq!(told.last(), Some(&Event::Complete { total: length as u64 }));
        }
    }
}

// ---- orders

#[test]
fn the_order_of_refusals() {
    let list = format!("{NEEDED} {ADDED}");
    let good = |number: usize| [HELLO_DIGEST.to_string(), "12".to_string(), sig(KEY, "1", &list)][number].clone();
    // Faults of 13, then 14, 15 and 12: which of the three has it, and how
    let faults = [
        (13, 0, "SHA-256=x".to_string()),
        (13, 1, "012".to_string()),
        (13, 2, sig(KEY, "1", NEEDED)),
        (13, 2, sig(OTHER_KEY, "1", NEEDED)),
        (14, 1, "13".to_string()),
        (15, 0, digest_of(b"Hello world?")),
        (12, 2, sig(OTHER_KEY, "1", &list)),
    ];
    for chosen in 1..1 << faults.len() {
        let mut values: [Option<String>; 3] = [None, None, None];
        let mut numbers = Vec::new();
        for (place, (number, which, value)) in faults.iter().enumerate() {
            if chosen >> place & 1 == 1 && values[*which].is_none() {
                values[*which] = Some(value.clone());
                numbers.push(*number);
            }
        }
        let [digest, size, sig1] = [0, 1, 2].map(|number| values[number].clone().unwrap_or_else(|| good(number)));
        let first = [13, 14, 15, 12].into_iter().find(|number| numbers.contains(number)).expect("a fault");
        let all = lines(&digest, &size, &sig1).concat();
        Show::ending(&all).is(&format!("refused {first}"));
        Show::heading(&all).is(&format!("refused {first}"));
        Show::ending(&format!("{all}A b\r\n")).is(&format!("refused 6 at {}", all.len() + 1));
    }
}

#[test]
fn answers_to_the_last_question() {
    for show in [Show::ending(&three().concat()), Show::heading(&three().concat())] {
        let refused = show.events(&[true, true, true, true, false]);
        assert_eq!(refused.last(), Some(&Event::Refused(Refusal::plain(10))));
        assert!(matches!(show.events(&[true; 4]).last(), Some(Event::Question(_))));
        assert_eq!(show.events(&[true; 4]).len() + 1, refused.len());
    }
}

// ---- calls and holds

#[test]
fn calls_at_the_last_question_and_after_it() {
    let refused = |number| Outcome { word: Word::Refused(Refusal::plain(number)), taken: 0 };
    let (enough, short) = (Holds::ENOUGH, Holds { question: 1, ..Holds::ENOUGH });
    let mut calls = asked(&Show::ending(&three().concat()));
    for _ in 0..2 {
        assert_eq!(calls.feed(enough, &[], b"", b"more"), refused(1));
        assert_eq!(calls.feed(enough, &[], b"", b""), refused(1));
        assert_eq!(calls.end(enough), refused(1));
        assert_eq!(calls.answer(short, true), refused(2));
        assert_eq!(calls.end(short), refused(2));
        if !calls.reading().is_final() {
            assert_eq!(calls.answer(enough, true), Outcome { word: Word::Complete { total: 12 }, taken: 0 });
        }
    }
    assert_eq!(calls.answer(enough, true), refused(1));
    assert_eq!(calls.answer(enough, false), refused(1));
}

/// What lies in the block hold after the last call: the trailer over the last block, or zeros in its place.
#[test]
fn what_is_set_to_zero() {
    let Holds { head, block, question } = Holds::ENOUGH;
    let marks = Contents { head: vec![1; head], block: vec![2; block], question: vec![3; question] };
    let gathered = |show: &Show| show.stream()[show.front()..].to_vec();
    // The blocks are `Hello`, ` worl`, `d!`; what the trailer does not cover stays
    let due = |front: &[u8]| {
        let mut due = marks.block.clone();
        due[..5].copy_from_slice(b"d!orl");
        due[..front.len()].copy_from_slice(front);
        due
    };
    let (in_trailer, in_head) = (Show::ending(&three().concat()), Show::heading(&three().concat()));
    for show in [&in_trailer, &in_head] {
        let trailer = gathered(show);
        let mut calls = asked(show);
        let message = show.is_complete().message;
        assert_eq!(calls.contents(&marks).block, due(&trailer));
        assert!(calls.contents(&marks).question.starts_with(&[&message[..], &[3]].concat()));
        let mut refused = calls.clone();
        calls.answer(Holds::ENOUGH, true);
        assert_eq!(calls.contents(&marks).block, due(&trailer));
        refused.answer(Holds::ENOUGH, false);
        assert_eq!(refused.contents(&marks).block, due(&vec![0; trailer.len()]));
        assert_eq!(refused.contents(&marks).question, calls.contents(&marks).question);
    }
    assert_eq!(gathered(&in_head).len(), 2);
    let list = format!("{NEEDED} {ADDED}");
    for (digest, size, key, number) in [
        (HELLO_DIGEST, "12", OTHER_KEY, 12),
        (HELLO_DIGEST, "x", KEY, 13),
        (HELLO_DIGEST, "1", KEY, 14),
        ("SHA-256=47DEQpj8HBSa+/TImW+5JCeuQeRkm5NMpJWZG3hSuFU=", "12", KEY, 15),
    ] {
        let lines = lines(digest, size, &sig(key, "1", &list)).concat();
        for show in [Show::ending(&lines), Show::heading(&lines)] {
            show.is(&format!("refused {number}"));
            let zeros = vec![0; gathered(&show).len()];
            assert_eq!(asked(&show).contents(&marks).block, due(&zeros));
        }
    }
    let closed = Show::ending("A: b\r\n");
    assert_eq!(asked(&closed).contents(&marks).block, due(b"A: b\r\n\r\n"));
    assert_eq!(asked(&Show::bare()).contents(&marks).block, due(b"\r\n"));
}
