//! Part answers (request #104): document 000's example, however it is cut; the rules of a part's head, of the hash that it begins with and of
//! its end; and what is told of it. The streams are the example's with edits; all answers are yes, so the signatures need not fit.

mod common;

use common::{body_lines, ends, line, part, part_head, part_head_with, ring, with_trailer, HASH_0, URI};
use ouinet_reader::{run, Ending, Event, PartRange, Reader, Refusal};

const LINES: &str = "question 219\nhead 206\nquestion 83\nblock 5 5\nquestion 84\nblock 10 2\nclosed 7\n";
const PIECES: [usize; 6] = [1, 2, 3, 7, 100, 65_536];

/// What a reading says, and the messages that it asks about.
#[derive(Debug, PartialEq, Eq)]
struct Said {
    lines: String,
    messages: Vec<Vec<u8>>,
    body: Vec<u8>,
}

fn read_in(stream: &[u8], piece: usize) -> Said {
    let (mut lines, mut messages, mut body) = (String::new(), Vec::new(), Vec::new());
    let source = Slow { rest: stream, most: piece };
    let done = run(
        source,
        ring(),
        URI,
        |question| {
            messages.push(question.message.to_vec());
            true
        },
        |_, event| {
            lines.push_str(&line(event));
            if let Event::Block { bytes, .. } = event {
                body.extend_from_slice(bytes);
            }
            Ok::<(), ()>(())
        },
    );
    done.expect("nothing fails");
    Said { lines, messages, body }
}

/// Bytes that come so many at a time.
struct Slow<'a> {
    rest: &'a [u8],
    most: usize,
}

impl std::io::Read for Slow<'_> {
    fn read(&mut self, out: &mut [u8]) -> std::io::Result<usize> {
        let count = self.most.min(out.len());
        self.rest.read(&mut out[..count])
    }
}

/// A reading, which does not depend on the cuts.
fn read(stream: &[u8]) -> Said {
    let said = read_in(stream, 65_536);
    for piece in PIECES {
        assert_eq!(read_in(stream, piece), said, "pieces of {piece}");
    }
    said
}

/// The last line that is said of a stream.
fn last(stream: impl AsRef<[u8]>) -> String {
    let said = read(stream.as_ref());
    said.lines.lines().last().unwrap_or_default().to_string()
}

/// What a head comes to: a question, or its refusal.
fn judged(head: &str) -> String {
    let said = read(head.as_bytes());
    said.lines.lines().next().unwrap_or_default().to_string()
}

const ASKED: &str = "question 219";

#[test]
fn the_example_of_document_000() {
    let said = read(&part());
    assert_eq!(said.lines, LINES);
    assert_eq!(said.body, b" world!");
    // The same messages as those of the whole answer
    let whole = read(&with_trailer("\r\n"));
    assert_eq!(said.messages, [&whole.messages[..1], &whole.messages[2..]].concat());
    let ending = run(&part()[..], ring(), URI, |_| true, |_, _| Ok::<(), ()>(())).expect("nothing fails");
    assert_eq!(ending, Ending::Closed { total: 7 });
}

#[test]
fn which_bytes_they_are() {
    let stream = part();
    let mut reader = Reader::new(ring(), URI);
    let taken = reader.feed(&stream).expect("in turn").taken;
    assert_eq!((reader.range(), reader.id(), reader.block_size()), (None, None, None));
    reader.answer(true).expect("a question is open");
    let range = Some(PartRange { first: 5, last: 11, total: 12 });
    assert_eq!(reader.range(), range);
    assert_eq!(reader.range().map(|range| range.length()), Some(7));
    assert_eq!((reader.id(), reader.block_size()), (Some(&b"qwertyuiop-12345"[..]), Some(5)));
    assert_eq!(reader.value("X-Ouinet-HTTP-Status"), b"", "it is not signed");
    reader.feed(&stream[taken..taken + 50]).expect("in turn");
    reader.end().expect("in turn");
    assert_eq!(reader.range(), range);

    let mut no = Reader::new(ring(), URI);
    no.feed(&stream).expect("in turn");
    assert_eq!(no.answer(false), Ok(Event::Refused(Refusal::BadSignature)));
    assert_eq!((no.range(), no.id(), no.block_size()), (None, None, None));

    let mut whole = Reader::new(ring(), URI);
    whole.feed(&with_trailer("\r\n")).expect("in turn");
    whole.answer(true).expect("a question is open");
    assert_eq!((whole.range(), whole.block_size()), (None, Some(5)));
    assert_eq!(whole.id(), Some(&b"qwertyuiop-12345"[..]));
}

#[test]
fn good_ranges() {
    for range in [
        "bytes 5-11/12",
        "bytes 0-11/12",
        "bytes 0-4/12",
        "bytes 5-9/12",
        "bytes 10-11/12",
        "bytes 0-0/1",
        "bytes 0-4/5",
        "bytes 10-14/15",
        "bytes 4294967295-4294967295/4294967296",
        "bytes 0-4294967295/4294967296",
    ] {
        assert_eq!(judged(&part_head(range)), ASKED, "{range}");
    }
}

/// All of these are refused with 4.
fn are_wrong(ranges: &[&str]) {
    for range in ranges {
        assert_eq!(judged(&part_head(range)), "refused 4", "{range}");
    }
}

#[test]
fn ranges_with_a_wrong_text() {
    are_wrong(&["", "bytes", "bytes 5-11", "bytes 5-11/*", "bytes */12", "bytes 5-/12", "bytes -11/12", "bytes 5-11/"]);
    are_wrong(&["bytes 05-11/12", "bytes 5-011/12", "bytes 5-11/012", "Bytes 5-11/12", "octets 5-11/12"]);
    are_wrong(&["bytes  5-11/12", "bytes\t5-11/12", "bytes 5 - 11/12", "bytes=5-11/12", "bytes 5-11/12 x"]);
    are_wrong(&["bytes 5-11/12, 0-4/12", "bytes 0-4/12,bytes 5-11/12", "bytes 0-4,5-11/12"]);
}

#[test]
fn ranges_against_the_rules() {
    are_wrong(&["bytes 5-10/12", "bytes 6-11/12", "bytes 5-12/12", "bytes 10-9/12", "bytes 5-4/12", "bytes 0-0/0"]);
    // Over the limits, and what would be right if a number wrapped
    are_wrong(&[
        "bytes 0-4/4",
        "bytes 0-4294967296/4294967297",
        "bytes 0-4294967299/4294967300",
        "bytes 0-999999999999/1000000000000",
        "bytes 0-11/9999999999999",
        "bytes 4294967301-4294967307/4294967308",
        "bytes 18446744073709551621-18446744073709551627/18446744073709551628",
    ]);
}

#[test]
fn fields_of_a_part_s_head() {
    let range = "Content-Range: bytes 5-11/12\r\n";
    let with = |lines: &str| judged(&part_head_with(lines));
    for status in ["200", "301", "302", "307"] {
        let head = part_head_with(&format!("{range}x-ouinet-http-STATUS: \t{status} \r\n"));
        assert_eq!(judged(&head), ASKED);
        let message = &read(head.as_bytes()).messages[0];
        assert!(message.starts_with(format!("(response-status): {status}\n").as_bytes()), "{status}");
    }
    for status in ["", "206", "304", "20", "2000", "0200", "200 OK", "OK"] {
        assert_eq!(with(&format!("{range}X-Ouinet-HTTP-Status: {status}\r\n")), "refused 4", "{status}");
    }
    assert_eq!(with(range), "refused 4");
    assert_eq!(with("X-Ouinet-HTTP-Status: 200\r\n"), "refused 4");
    assert_eq!(with(&format!("{range}{range}X-Ouinet-HTTP-Status: 200\r\n")), "refused 4");
    let twice = format!("{range}X-Ouinet-HTTP-Status: 200\r\nX-Ouinet-HTTP-Status: 200\r\n");
    assert!(with(&twice).starts_with("refused 3 at "));
    // Other statuses stay what they were
    for status in ["201", "204", "304", "404"] {
        assert_eq!(judged(&part_head("bytes 5-11/12").replacen("206", status, 1)), "refused 4", "{status}");
    }
}

#[test]
fn in_whole_answers_the_two_are_plain_fields() {
    let lines = "Content-Range: 1\r\nContent-Range: bytes 5-11/12\r\nX-Ouinet-HTTP-Status: 404\r\n";
    let whole = String::from_utf8(with_trailer("\r\n")).expect("text").replacen("\r\n", &format!("\r\n{lines}"), 1);
    assert_eq!(last(&whole), "closed 12");
    let head = part_head_with(lines).replacen("206", "302", 1);
    assert!(read(head.as_bytes()).messages[0].starts_with(b"(response-status): 302\n"));
    let doubled = whole.replacen("X-Ouinet-HTTP-Status", "X-Ouinet-HTTP-Status: 200\r\nX-Ouinet-HTTP-Status", 1);
    assert!(last(doubled).starts_with("refused 3 at "));
}

/// A part answer of this range with these lines for a body.
fn with_body(range: &str, body: &str) -> String {
    part_head(range) + body
}

#[test]
fn the_hash_that_a_part_begins_with() {
    let [_, _, signed, ..] = body_lines();
    let hash = format!(";ouihash={HASH_0}");
    for (range, body, due) in [
        // Missing, and there where it is not due
        ("bytes 5-11/12", "5\r\n".to_string(), "refused 8"),
        ("bytes 5-11/12", signed.clone(), "refused 8"),
        ("bytes 0-11/12", format!("5{hash}\r\n"), "refused 8"),
        ("bytes 0-11/12", format!("5\r\nHello\r\n5{hash}\r\n"), "refused 8"),
        ("bytes 5-11/12", format!("5{hash}\r\n worl\r\n2{hash}\r\n"), "refused 8"),
        ("bytes 5-11/12", format!("5{hash}\r\n worl\r\n2\r\n"), "refused 8"),
        // Before the size
        ("bytes 5-11/12", "0\r\n".to_string(), "refused 8"),
        ("bytes 5-11/12", "6\r\n".to_string(), "refused 8"),
        ("bytes 5-11/12", format!("0{hash}\r\n"), "refused 7"),
        ("bytes 5-11/12", format!("6{hash}\r\n"), "refused 7"),
        // Wrong texts, at their places
        ("bytes 5-11/12", format!("5{}\r\n", &hash[..96]), "refused 6 at 97"),
        ("bytes 5-11/12", format!("5{hash}=\r\n"), "refused 6 at 98"),
        ("bytes 5-11/12", format!("5{}\r\n", hash.replace("zFQ==", "zFR==")), "refused 6 at 95"),
        ("bytes 5-11/12", "5;ouihash=\r\n".to_string(), "refused 6 at 10"),
        ("bytes 5-11/12", "5;ouihaSh=\r\n".to_string(), "refused 6 at 7"),
        ("bytes 5-11/12", "5;ouiHash=\r\n".to_string(), "refused 6 at 5"),
        ("bytes 5-11/12", format!("5 {hash}\r\n"), "refused 6 at 1"),
        // Both extensions are more than a line may have
        ("bytes 5-11/12", format!("5{hash}{}", &signed[1..]), "refused 6 at 128"),
    ] {
        assert_eq!(last(with_body(range, &body)), due, "{range}, {body:?}");
    }
    let whole = |body: String| String::from_utf8(common::head_with("", "")).expect("text") + &body;
    assert_eq!(last(whole(format!("5{hash}\r\n"))), "refused 8");
    assert_eq!(last(whole(format!("5\r\nHello\r\n5{hash}\r\n"))), "refused 8");
    assert_eq!(last(whole(format!("5{}\r\n", &hash[..96]))), "refused 6 at 97");
}

#[test]
fn the_chain_starts_from_it() {
    let good = read(&part());
    let other = String::from_utf8(part()).expect("text").replacen("ouihash=N", "ouihash=O", 1);
    let said = read(other.as_bytes());
    assert_eq!(said.lines, LINES, "all answers are yes");
    assert_eq!(said.messages[0], good.messages[0]);
    for (number, offset) in [(1, "5"), (2, "10")] {
        let (ours, theirs) = (&said.messages[number], &good.messages[number]);
        assert_ne!(ours, theirs);
        let front = format!("qwertyuiop-12345\0{offset}\0");
        assert!(ours.starts_with(front.as_bytes()) && theirs.starts_with(front.as_bytes()));
        assert_eq!((ours.len(), theirs.len()), (front.len() + 64, front.len() + 64));
    }
}

#[test]
fn where_a_part_ends() {
    let lines = body_lines();
    let [_, _, five, second, two, third, zero] = lines.each_ref().map(String::as_str);
    let first = &format!("5;ouihash={HASH_0}\r\n")[..];
    let sized = |line: &str, size: &str| format!("{size}{}", &line[1..]);
    let (six, four, one) = (&sized(two, "6")[..], &sized(two, "4")[..], &sized(two, "1")[..]);
    let (first_two, first_four) = (&sized(first, "2")[..], &sized(first, "4")[..]);
    for (range, body, due) in [
        // Its last byte is the show's, or not
        ("bytes 5-9/12", &[first, second, zero, "\r\n"][..], "closed 5"),
        ("bytes 0-4/12", &["5\r\n", "Hello\r\n", zero, "\r\n"], "closed 5"),
        ("bytes 10-11/12", &[first_two, third, zero, "\r\n"], "closed 2"),
        // A line of size 0 before it
        ("bytes 5-11/12", &[first, second, zero], "refused 7"),
        ("bytes 0-11/12", &["0\r\n"], "refused 7"),
        ("bytes 0-11/12", &["5\r\n", "Hello\r\n", zero], "refused 7"),
        // Chunks past it
        ("bytes 5-9/12", &[first, second, two], "refused 7"),
        ("bytes 5-11/12", &[first, second, five], "refused 7"),
        ("bytes 5-11/12", &[first, second, two, third, five], "refused 7"),
        ("bytes 10-11/12", &[first], "refused 7"),
        // Against the rule of blocks
        ("bytes 5-11/12", &[first, second, six], "refused 7"),
        ("bytes 5-14/20", &[first, second, four, "worl\r\n", zero], "refused 7"),
        ("bytes 5-14/20", &[first, second, four, "worl\r\n", one], "refused 7"),
        ("bytes 5-11/12", &[first_four, " wor\r\n", two], "refused 7"),
    ] {
        assert_eq!(last(with_body(range, &body.concat())), due, "{range}, {body:?}");
    }
    // The block before an early line of size 0 is not asked about
    let early = read(with_body("bytes 5-11/12", &[first, second, zero].concat()).as_bytes());
    assert_eq!(early.lines, "question 219\nhead 206\nrefused 7\n");
}

/// The whole show as a part answer, with this trailer.
fn from_the_start(lines: &str, trailer: &str) -> String {
    let head = part_head_with(&format!("{lines}Content-Range: bytes 0-11/12\r\nX-Ouinet-HTTP-Status: 200\r\n"));
    head + &body_lines().concat() + trailer
}

#[test]
fn the_end_of_the_show_is_not_checked() {
    let doubled = format!("Digest: x\r\n{}", ends());
    for trailer in ["\r\n", ends(), "Digest: x\r\n\r\n", &doubled, &ends().replace("Size: 12", "Size: 13")] {
        let said = read(from_the_start("", trailer).as_bytes());
        assert_eq!(said.lines.lines().last(), Some("closed 12"), "{trailer}");
        assert_eq!((said.messages.len(), &said.body[..]), (4, &b"Hello world!"[..]));
    }
    assert_eq!(last(from_the_start("Digest: x\r\ndigest: y\r\n", "\r\n")), "closed 12");
    // Its text is
    assert_eq!(last(from_the_start("", "A b\r\n\r\n")), "refused 6 at 1");
    let wrong = ends().replace("\r\n\r\n", "\r\nA b\r\n\r\n");
    assert_eq!(last(from_the_start("", &wrong)), format!("refused 6 at {}", ends().len() - 1));
}

#[test]
fn at_the_body_s_limit() {
    let [_, _, _, _, _, _, zero] = body_lines();
    let first = format!("1;ouihash={HASH_0}\r\nx\r\n");
    let range = "bytes 4294967295-4294967295/4294967296";
    let said = read(with_body(range, &format!("{first}{zero}\r\n")).as_bytes());
    assert_eq!(said.lines, "question 219\nhead 206\nquestion 92\nblock 4294967295 1\nclosed 1\n");
    assert!(said.messages[1].starts_with(b"qwertyuiop-12345\x004294967295\x00"));
    assert_eq!(last(with_body(range, &format!("{first}1{}", &zero[1..]))), "refused 7");
}

#[test]
fn parts_that_stop() {
    let stream = part();
    for length in 0..stream.len() {
        let said = read_in(&stream[..length], 65_536);
        assert_eq!(said.lines.lines().last(), Some("refused 11"), "after {length} bytes");
        assert!(b" world!".starts_with(&said.body));
    }
}
