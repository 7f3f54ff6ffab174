//! The URI that the caller asked for: the examples of request #105 and their neighbours. Signatures are stand-ins, since the
//! readings ask about them and never check them.

mod common;

use common::{head_with, ring, KEY};
use second::calls::{Calls, Contents, Holds, Outcome, Word};
use second::event::{Event, Refusal};
use second::head;
use second::plain;
use second::reader::Reader;
use second::ring::Record;
use std::path::PathBuf;
use std::process::Command;

const OTHER_KEY: &str = "AQAAAAAAAAAAAAAAAAAAAAAAAAAAAAAAAAAAAAAAAAA=";
const SOUTH: &str = "https://example.com/South";
const NORTH: &str = "https://example.com/North";
const PIECES: [usize; 5] = [1, 2, 7, 100, 65_536];
/// A final refusal that has no place.
const OTHER_SHOW: Refusal = Refusal { number: 16, at: None };

/// A head that is good in all, with this text between the colon and the line end of `X-Ouinet-URI`.
fn head_of(uri: &str) -> String {
    head_with(uri, "", "")
}

fn south() -> String {
    head_of(&format!(" {SOUTH}"))
}

/// The good head of the southern show with a text replaced.
fn edited(from: &str, to: &str) -> String {
    let head = south();
    assert!(head.contains(from), "{from:?} is not there");
    head.replacen(from, to, 1)
}

/// The question's length or the refusal, as a head is judged at its last byte.
type Judged = Result<usize, Refusal>;

fn judged_event(event: &Event) -> Judged {
    match event {
        Event::Question(question) => Ok(question.message.len()),
        Event::Refused(refusal) => Err(*refusal),
        other => panic!("{other:?}"),
    }
}

fn by_reader(head: &[u8], ring: &[Record], asked: &[u8], piece: usize) -> Judged {
    let mut reader = Reader::new(ring.to_vec(), asked.to_vec());
    let mut told = None;
    for bytes in head.chunks(piece) {
        let (taken, event) = reader.feed(bytes).expect("in time");
        assert_eq!(taken, bytes.len());
        told = told.or(event);
    }
    let judged = judged_event(&told.expect("an event"));
    assert_eq!(reader.other_show().is_some(), judged == Err(OTHER_SHOW));
    judged
}

fn by_calls(head: &[u8], ring: &[Record], asked: &[u8], piece: usize) -> Judged {
    let mut calls = Calls::new();
    let mut last = Word::More;
    for bytes in head.chunks(piece) {
        assert_eq!(last, Word::More);
        last = calls.feed(Holds::ENOUGH, ring, asked, bytes).word;
    }
    match last {
        Word::Question(question) => Ok(question.message.len()),
        Word::Refused(refusal) => Err(refusal),
        other => panic!("{other:?}"),
    }
}

/// What a whole head comes to with this ring, asked for so: by the plain reading, and by the piecewise reader and the list
/// of calls in pieces of several lengths, which must all agree.
fn judged_by(head: &[u8], ring: &[Record], asked: &[u8]) -> Judged {
    let reading = plain::read(head, ring, asked, &[], false);
    let placed = reading.events.first().expect("an event");
    let judged = judged_event(&placed.event);
    assert_eq!((reading.events.len(), placed.place), (1, head.len()));
    assert_eq!(head::judge(head, ring, asked).map(|head| head.signing_string.len()), judged);
    for piece in PIECES {
        assert_eq!(by_reader(head, ring, asked, piece), judged, "pieces of {piece}");
        assert_eq!(by_calls(head, ring, asked, piece), judged, "pieces of {piece}");
    }
    judged
}

fn judged(head: &str, asked: impl AsRef<[u8]>) -> Judged {
    judged_by(head.as_bytes(), &ring(), asked.as_ref())
}

fn is_other(head: &str, asked: impl AsRef<[u8]>) {
    let shown = asked.as_ref().escape_ascii().to_string();
    assert_eq!(judged(head, asked), Err(OTHER_SHOW), "asked for {shown:.100?}");
}

#[test]
fn the_same_bytes_are_asked_about() {
    for uri in [SOUTH, NORTH, "u", "/", "a b\tc", "~", "\u{e9}\u{0301}", "%2F", "https://example.com/?q=\"'\\`"] {
        assert!(judged(&head_of(&format!(" {uri}")), uri).is_ok(), "{uri}");
    }
    for length in [7000, 32_000] {
        let long = "x".repeat(length);
        assert!(judged(&head_of(&long), &long).is_ok());
    }
}

#[test]
fn a_byte_that_differs() {
    is_other(&south(), NORTH);
    let head = south();
    for place in 0..SOUTH.len() {
        for byte in 0..=255 {
            let mut asked = SOUTH.as_bytes().to_vec();
            asked[place] = byte;
            let due = byte == SOUTH.as_bytes()[place];
            let refused = head::judge(head.as_bytes(), &ring(), &asked).err();
            assert_eq!(refused, (!due).then_some(OTHER_SHOW), "{byte} at {place}");
        }
    }
}

#[test]
fn no_case_is_folded() {
    for asked in [SOUTH.to_lowercase(), SOUTH.to_uppercase(), SOUTH.replace('S', "s"), SOUTH.replace("http", "HTTP")] {
        is_other(&south(), asked);
    }
    is_other(&head_of(" HTTPS://EXAMPLE.COM/SOUTH"), SOUTH);
    is_other(&head_of(" /%2F"), "/%2f");
    // The field's name is compared without case
    assert!(judged(&edited("X-Ouinet-URI", "x-oUINET-uri"), SOUTH).is_ok());
}

#[test]
fn beginnings_and_ends() {
    for length in 0..SOUTH.len() {
        is_other(&south(), &SOUTH[..length]);
        is_other(&south(), &SOUTH[length + 1..]);
    }
    for more in ["/", "h", "#", "?", "\0", "\n", "\r\n", "\r\n\r\n"] {
        is_other(&south(), format!("{SOUTH}{more}"));
        is_other(&south(), format!("{more}{SOUTH}"));
    }
    is_other(&south(), SOUTH.repeat(2));
    is_other(&head_of(&format!(" {SOUTH}/")), SOUTH);
    is_other(&head_of(&format!(" {SOUTH} {SOUTH}")), SOUTH);
    is_other(&south(), format!("X-Ouinet-URI: {SOUTH}"));
}

#[test]
fn the_head_s_value_is_trimmed_and_the_asked_bytes_are_not() {
    for (left, right) in [("", ""), (" ", " "), ("\t", ""), ("", "\t"), (" \t ", "\t \t"), ("    ", "    ")] {
        let head = head_of(&format!("{left}{SOUTH}{right}"));
        assert!(judged(&head, SOUTH).is_ok(), "{left:?}, {right:?}");
        if (left, right) != ("", "") {
            is_other(&head, format!("{left}{SOUTH}{right}"));
        }
        for asked in [" ", "\t"].iter().flat_map(|blank| [format!("{blank}{SOUTH}"), format!("{SOUTH}{blank}")]) {
            is_other(&head, asked);
        }
    }
    // A blank inside is part of the value
    assert!(judged(&head_of(" a  b "), "a  b").is_ok());
    is_other(&head_of(" a  b "), "a b");
}

#[test]
fn empty_ones() {
    is_other(&south(), "");
    for asked in ["", " ", SOUTH, "\t", "X-Ouinet-URI"] {
        for none in [head_of(""), head_of(" "), head_of("\t \t"), edited(&format!("X-Ouinet-URI: {SOUTH}\r\n"), "")] {
            assert_eq!(judged(&none, asked), Err(Refusal::plain(4)), "{asked:?}");
        }
    }
}

/// Whatever else is wrong with the head but its key goes first, with the same number as for the right URI.
#[test]
fn three_four_and_five_go_first() {
    let fields: String = (0..head::MOST_FIELDS).map(|number| format!("f{number}:\r\n")).collect();
    let uri_line = format!("X-Ouinet-URI: {SOUTH}\r\n");
    let list = "x-ouinet-version x-ouinet-uri x-ouinet-injection";
    let edits = [
        (3, "X-Ouinet-URI:".to_string(), "X-Ouinet-URI :".to_string()),
        (3, "HTTP/1.1 200".to_string(), "HTTP/1.1 20".to_string()),
        (3, uri_line.clone(), uri_line.repeat(2)),
        (3, uri_line.clone(), format!("{uri_line}x-ouinet-uri: {NORTH}\r\n")),
        (3, uri_line.clone(), format!("{uri_line}{fields}")),
        (5, "Version: 4".to_string(), "Version: 5".to_string()),
        (5, "Version: 4".to_string(), "Version:".to_string()),
        (4, "X-Ouinet-Version: 4\r\n".to_string(), String::new()),
        (4, "200 OK".to_string(), "404 OK".to_string()),
        (4, "chunked".to_string(), "gzip".to_string()),
        (4, uri_line.clone(), format!("{uri_line}Content-Length: 5\r\n")),
        (4, "id=a".to_string(), "id=".to_string()),
        (4, "size=5".to_string(), "size=0".to_string()),
        (4, "created=1".to_string(), "created=01".to_string()),
        (4, "signature=\"A".to_string(), "signature=\"".to_string()),
        (4, list.to_string(), "x-ouinet-version x-ouinet-injection".to_string()),
        (4, list.to_string(), format!("{list} x-ouinet-uri")),
        (4, list.to_string(), format!("{list} nowhere")),
        (4, list.to_string(), format!("{list} x-ouinet-sig0")),
        (4, "(created) ".to_string(), String::new()),
    ];
    for (number, from, to) in edits {
        let head = edited(&from, &to);
        let right = judged(&head, SOUTH).expect_err(&to);
        assert_eq!(right.number, number, "{from:?} replaced by {to:?}");
        for asked in [NORTH, ""] {
            assert_eq!(judged(&head, asked), Err(right), "{from:?} replaced by {to:?}");
        }
    }
}

#[test]
fn twelve_goes_last() {
    let other_key = Record { key: [7; 32], first: 0, last: u64::MAX };
    let late = Record { key: [0; 32], first: 2, last: 9 };
    for ring in [vec![], vec![other_key.clone()], vec![late, other_key]] {
        for (asked, number) in [(SOUTH, 12), (NORTH, 16), ("", 16)] {
            let refused = judged_by(south().as_bytes(), &ring, asked.as_bytes());
            assert_eq!(refused, Err(Refusal::plain(number)));
        }
    }
    // BSigs stands before Sig0, so the first key is that of the blocks
    let unlike = edited(KEY, OTHER_KEY);
    assert_eq!(judged(&unlike, SOUTH), Err(Refusal::plain(12)));
    is_other(&unlike, NORTH);
}

#[test]
fn any_length_will_do() {
    let million = [SOUTH.as_bytes(), &b"x".repeat(1_000_000)].concat();
    is_other(&south(), &million[..1_000_000]);
    is_other(&south(), &million);
    // It is never a cause for refusal 2
    let mut calls = Calls::new();
    let fed = calls.feed(Holds::ENOUGH, &ring(), &million, b"HTTP/1.1 200 OK\r\n");
    assert_eq!(fed, Outcome { word: Word::More, taken: 17 });
}

#[test]
fn every_cutting_gives_the_same() {
    let stream = format!("{}5\r\nHello\r\n", south());
    let end = south().len();
    for (asked, word) in [(SOUTH, None), (NORTH, Some(Word::Refused(OTHER_SHOW)))] {
        for cut in 0..=end {
            let mut calls = Calls::new();
            let first = calls.feed(Holds::ENOUGH, &ring(), asked.as_bytes(), &stream.as_bytes()[..cut]);
            let decided = if cut < end {
                assert_eq!(first, Outcome { word: Word::More, taken: cut });
                calls.feed(Holds::ENOUGH, &ring(), asked.as_bytes(), &stream.as_bytes()[cut..])
            } else {
                first
            };
            assert_eq!(calls.bytes().len(), end, "cut at {cut}");
            match &word {
                Some(word) => assert_eq!(&decided.word, word, "cut at {cut}"),
                None => assert!(matches!(decided.word, Word::Question(_)), "cut at {cut}"),
            }
        }
    }
}

/// Only what is lent with the piece that ends the head is read.
#[test]
fn it_is_read_only_when_the_head_is_judged() {
    let stream = format!("{}5\r\nHello\r\n0;ouisig={}==\r\n\r\n", south(), "A".repeat(86));
    let end = south().len();
    let mut calls = Calls::new();
    for (place, asked) in [(0, NORTH), (10, ""), (20, "x")] {
        let piece = &stream.as_bytes()[place..place + 10];
        assert_eq!(calls.feed(Holds::ENOUGH, &ring(), asked.as_bytes(), piece).word, Word::More);
    }
    let mut wrong = calls.clone();
    let rest = &stream.as_bytes()[30..];
    let refused = wrong.feed(Holds::ENOUGH, &ring(), NORTH.as_bytes(), rest);
    assert_eq!(refused, Outcome { word: Word::Refused(OTHER_SHOW), taken: end - 30 });
    assert!(matches!(calls.feed(Holds::ENOUGH, &ring(), SOUTH.as_bytes(), rest).word, Word::Question(_)));
    assert_eq!(calls.answer(Holds::ENOUGH, true).word, Word::HeadAccepted { status: 200 });
    assert_eq!(calls.value(32_768, b"x-ouinet-uri"), SOUTH.as_bytes());
    let rest = &stream.as_bytes()[end..];
    let (line, after) = rest.split_at(10 + 99);
    let asked = calls.feed(Holds::ENOUGH, &[], NORTH.as_bytes(), line);
    assert!(matches!(asked.word, Word::Question(_)));
    assert_eq!(calls.answer(Holds::ENOUGH, true).word, Word::Block { offset: 0, length: 5 });
    assert_eq!(calls.feed(Holds::ENOUGH, &[], b"", after).word, Word::Closed { total: 5 });
    assert_eq!(calls.value(32_768, b"x-ouinet-uri"), SOUTH.as_bytes());
}

#[test]
fn what_a_refusal_leaves() {
    let Holds { head, block, question } = Holds::ENOUGH;
    let first = Contents { head: vec![1; head], block: vec![2; block], question: vec![3; question] };
    let head = south();
    let mut calls = Calls::new();
    let stream = format!("{head}5\r\nHello");
    let refused = calls.feed(Holds::ENOUGH, &ring(), NORTH.as_bytes(), stream.as_bytes());
    assert_eq!(refused, Outcome { word: Word::Refused(OTHER_SHOW), taken: head.len() });
    let mut due = first.clone();
    due.head[..head.len()].copy_from_slice(head.as_bytes());
    assert_eq!(calls.contents(&first), due);
    for outcome in [
        calls.feed(Holds::ENOUGH, &ring(), SOUTH.as_bytes(), b"x"),
        calls.answer(Holds::ENOUGH, true),
        calls.end(Holds::ENOUGH),
    ] {
        assert_eq!(outcome, Outcome { word: Word::Refused(Refusal::plain(1)), taken: 0 });
    }
    assert_eq!((calls.value(32_768, b"x-ouinet-uri"), calls.value_count(32_768, b"x-ouinet-uri")), (&b""[..], 0));
    assert_eq!(calls.block(65_536), b"");
}

/// Random URIs of few letters, blanks among them, so that they are often alike but for their blanks.
#[test]
fn random_ones() {
    let mut state: u64 = 1;
    let mut below = |bound: u64| {
        state = state.wrapping_mul(6_364_136_223_846_793_005).wrapping_add(1_442_695_040_888_963_407);
        (state >> 33) % bound
    };
    let mut counts = [0; 3];
    for _ in 0..4000 {
        let mut text = || -> String { (0..below(5)).map(|_| [" ", "\t", "a", "A", "b"][below(5) as usize]).collect() };
        let (value, asked) = (text(), text());
        let trimmed = value.trim_matches([' ', '\t']);
        let due = if trimmed.is_empty() { Some(4) } else { (trimmed != asked).then_some(16) };
        let refused = head::judge(head_of(&value).as_bytes(), &ring(), asked.as_bytes()).err();
        assert_eq!(refused, due.map(Refusal::plain), "{value:?}, asked for {asked:?}");
        counts[match due {
            Some(4) => 0,
            Some(_) => 1,
            None => 2,
        }] += 1;
    }
    assert!(counts.iter().all(|&count| count > 50), "{counts:?}");
}

// ---- the program

/// A folder with the program's files. It goes away with this value.
struct Folder(PathBuf);

impl Drop for Folder {
    fn drop(&mut self) {
        let _ = std::fs::remove_dir_all(&self.0);
    }
}

impl Folder {
    fn new(name: &str) -> Self {
        let folder = Folder(std::env::temp_dir().join(format!("second-asked-{name}-{}", std::process::id())));
        std::fs::create_dir_all(folder.0.join("folder")).expect("a folder");
        let (ring, line) = (format!("{KEY} 0 9\n"), format!("{SOUTH}\n"));
        for (name, text) in [
            ("stream", &south()[..]),
            ("ring", &ring),
            ("answers", ""),
            ("cuts", "3\n"),
            ("uri", SOUTH),
            ("--where", SOUTH),
            ("north", NORTH),
            ("empty", ""),
            ("line", &line),
        ] {
            std::fs::write(folder.0.join(name), text).expect("a file");
        }
        folder
    }

    /// What the program wrote to standard output and to standard error, and its status.
    fn run(&self, words: &[&str]) -> (String, String, Option<i32>) {
        let mut program = Command::new(env!("CARGO_BIN_EXE_ouiread-second"));
        let output = program.current_dir(&self.0).args(words).output().expect("it runs");
        let text = |bytes: Vec<u8>| String::from_utf8(bytes).expect("text");
        (text(output.stdout), text(output.stderr), output.status.code())
    }

    /// The same with these words behind the three files that must be there.
    fn with(&self, words: &[&str]) -> (String, String, Option<i32>) {
        self.run(&[&["stream", "ring", "answers"], words].concat())
    }
}

#[test]
fn the_program_asks_for_a_file_s_bytes() {
    let folder = Folder::new("bytes");
    let asked = (folder.with(&["--uri", "uri"]).0, String::new(), Some(0));
    assert!(asked.0.starts_with("question "), "{asked:?}");
    for right in [
        &["--uri", "uri", "--where"][..],
        &["--where", "--uri", "uri"],
        &["cuts", "--where", "--uri", "uri"],
        &["cuts", "body", "--uri", "uri"],
        &["--uri", "--where"],
        &["--uri", "--where", "--where"],
    ] {
        assert_eq!(folder.with(right), asked, "{right:?}");
    }
    let other = |asked: &str| {
        let sentence = format!("ouiread-second: this is another show: asked for `{asked}`, got `{SOUTH}`\n");
        ("refused 16\n".to_string(), sentence, Some(0))
    };
    assert_eq!(folder.with(&["--uri", "north"]), other(NORTH));
    assert_eq!(folder.with(&["cuts", "--uri", "north", "--where"]), other(NORTH));
    assert_eq!(folder.with(&["--uri", "empty"]), other(""));
    assert_eq!(folder.with(&["--uri", "line"]), other(&format!("{SOUTH}\\x0a")));
}

#[test]
fn the_program_must_be_given_one() {
    let folder = Folder::new("words");
    let usage = "ouiread-second: usage: ouiread-second STREAM RING ANSWERS [CUTS [BODY]] --uri FILE [--where]\n";
    for wrong in [
        &[][..],
        &["--where"],
        &["--uri"],
        &["--where", "--uri"],
        &["--uri", "uri", "--uri", "uri"],
        &["--uri", "uri", "--where", "--uri", "uri"],
        &["--uri", "uri", "--where", "--where"],
        &["--uri", "uri", "cuts"],
        &["--uri", "uri", "--tally"],
        &["cuts", "body", "more", "--uri", "uri"],
    ] {
        assert_eq!(folder.with(wrong), (String::new(), usage.to_string(), Some(2)), "{wrong:?}");
    }
    // The options before the files, and two files, which are too few
    for wrong in [&["--uri", "uri", "stream", "ring", "answers"][..], &["stream", "ring", "--uri", "uri"]] {
        assert_eq!(folder.run(wrong), (String::new(), usage.to_string(), Some(2)), "{wrong:?}");
    }
    for missing in ["missing", "folder"] {
        let (out, complaint, status) = folder.with(&["--uri", missing]);
        assert_eq!((out, status), (String::new(), Some(2)));
        assert!(complaint.starts_with(&format!("ouiread-second: {missing}: ")), "{complaint}");
    }
}
