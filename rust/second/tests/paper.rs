//! The example of document 000 and the marked cases P1 to P12 of paper 01, held against the plain
//! reading, the piecewise reader and the list of calls. Signatures here are stand-ins, since the
//! readings ask about them and never check them. The example's end is that of the paper, without what
//! request #101 reads; `ends.rs` has it with the three fields.

mod common;

use common::{example, example_head, example_lines, ring, signature, EXAMPLE_URI as URI};
use second::base64;
use second::calls::{Calls, Holds, Word};
use second::chunk::{self, Before};
use second::event::{Event, Refusal};
use second::head;
use second::message;
use second::plain;
use second::reader::Reader;
use second::ring::Record;
use second::text;

const SIGNING_STRING: &str = "(response-status): 200\n\
    (created): 1584748800\n\
    x-ouinet-version: 4\n\
    x-ouinet-uri: https://example.com/hello\n\
    x-ouinet-injection: id=qwertyuiop-12345,ts=1584748800\n\
    date: Sat, 21 Mar 2020 00:00:00 GMT\n\
    content-type: text/plain";

fn head() -> Vec<u8> {
    example_head("id=qwertyuiop-12345,ts=1584748800", "5")
}

/// The example with a trailer that says nothing about the end of the show.
fn closed_example() -> Vec<u8> {
    example("Server: example\r\nX-Ouinet-Sig2: x\r\n")
}

fn plain_lines(stream: &[u8], answers: &[bool], told: bool) -> Vec<String> {
    let reading = plain::read(stream, &ring(), URI, answers, told);
    reading.events.iter().map(|placed| placed.event.to_string()).collect()
}

/// The lines of the piecewise reader, all yes, in pieces of this length, and the released bytes.
fn reader_lines(stream: &[u8], step: usize) -> (Vec<String>, Vec<u8>) {
    let mut reader = Reader::new(ring(), URI.to_vec());
    let (mut lines, mut body) = (Vec::new(), Vec::new());
    for piece in stream.chunks(step) {
        let mut rest = piece;
        while !rest.is_empty() {
            let (taken, event) = reader.feed(rest).expect("in time");
            rest = &rest[taken..];
            let Some(event) = event else { continue };
            lines.push(event.to_string());
            if event.is_final() {
                return (lines, body);
            }
            let answer = reader.answer(true).expect("a question is open");
            body.extend_from_slice(reader.block());
            lines.push(answer.to_string());
        }
    }
    lines.push(reader.end().expect("in time").to_string());
    (lines, body)
}

#[test]
fn the_example_gives_the_nine_lines() {
    let nine_lines = example_lines(&["closed 12"]);
    assert_eq!(plain_lines(&closed_example(), &[true; 4], true), nine_lines);
    for step in [1, 2, 3, 7, 100, 65_536] {
        let (lines, body) = reader_lines(&closed_example(), step);
        assert_eq!(lines, nine_lines, "pieces of {step}");
        assert_eq!(body, b"Hello world!");
    }
}

#[test]
fn the_example_cut_short_or_refused() {
    let stream = closed_example();
    let full = plain::read(&stream, &ring(), URI, &[true; 4], true);
    for length in 0..stream.len() {
        let mut expected: Vec<String> =
            full.events.iter().filter(|placed| placed.place <= length).map(|placed| placed.event.to_string()).collect();
        assert_eq!(plain_lines(&stream[..length], &[true; 4], false), expected);
        expected.push("refused 11".to_string());
        assert_eq!(plain_lines(&stream[..length], &[true; 4], true), expected);
        if length > 0 {
            assert_eq!(reader_lines(&stream[..length], 5).0, expected);
        }
    }
    assert_eq!(plain_lines(&stream, &[true, false], true), ["question 219", "head 200", "question 83", "refused 10"]);
    assert_eq!(plain_lines(&stream, &[true], true), ["question 219", "head 200", "question 83"]);
    assert_eq!(plain_lines(b"", &[], false), Vec::<String>::new());
    assert_eq!(plain_lines(b"", &[], true), ["refused 11"]);
}

fn first_line() -> Before {
    Before { block_size: 65_536, block: None, total: 0, part: None }
}

fn size_of(line: &str) -> Result<u32, Refusal> {
    chunk::judge(format!("{line}\r\n").as_bytes(), &first_line()).map(|line| line.size)
}

#[test]
fn p1_to_p4_sizes() {
    assert_eq!(size_of("5"), Ok(5));
    assert_eq!(size_of("00000005"), Ok(5));
    assert_eq!(size_of("000000005"), Err(Refusal::frame(8)));
    assert_eq!(size_of("a"), Ok(10));
    assert_eq!(size_of("A"), Ok(10));
    assert_eq!(size_of(" 5"), Err(Refusal::frame(0)));
}

#[test]
fn p5_an_empty_body() {
    let mut stream = head();
    stream.extend(b"0\r\n");
    assert_eq!(plain_lines(&stream, &[true], false), ["question 219", "head 200"]);
    stream.extend(b"\r\n");
    assert_eq!(plain_lines(&stream, &[true], false), ["question 219", "head 200", "closed 0"]);
    assert_eq!(reader_lines(&stream, 1).0, ["question 219", "head 200", "closed 0"]);
}

#[test]
fn p6_the_length_of_a_signature() {
    let before = Before { block_size: 5, block: Some(5), total: 5, part: None };
    let judge = |text: &str| chunk::judge(format!("5;ouisig={text}\r\n").as_bytes(), &before);
    assert!(judge(&signature()).is_ok());
    // The padding comes a character too early, and then the line's end does
    assert_eq!(judge(&signature()[1..]), Err(Refusal::frame(9 + 85)));
    assert_eq!(judge(&signature()[..87]), Err(Refusal::frame(9 + 87)));
}

#[test]
fn p7_base64() {
    assert_eq!(base64::decode(b"NhX4"), Some(vec![54, 21, 248]));
}

fn judged(injection: &str, size: &str) -> Result<(), Refusal> {
    head::judge(&example_head(injection, size), &ring(), URI).map(|_| ())
}

#[test]
fn p8_injections() {
    assert_eq!(judged("id=a,ts=0", "5"), Ok(()));
    assert_eq!(judged("id=,ts=1", "5"), Err(Refusal::plain(4)));
    assert_eq!(judged("id=a,ts=01", "5"), Err(Refusal::plain(4)));
}

#[test]
fn p9_block_sizes() {
    let injection = "id=a,ts=0";
    assert_eq!(judged(injection, "65536"), Ok(()));
    assert_eq!(judged(injection, "0"), Err(Refusal::plain(4)));
    assert_eq!(judged(injection, "65537"), Err(Refusal::plain(4)));
}

#[test]
fn p10_the_signing_string() {
    let head = head::judge(&head(), &ring(), URI).expect("a good head");
    assert_eq!(head.signing_string, SIGNING_STRING.as_bytes());
    assert_eq!(head.signing_string.len(), 219);
    assert_eq!(head.record, 0);
}

#[test]
fn p11_the_lengths_of_block_messages() {
    let lengths = [0, 5, 10].map(|offset| message::block_message(b"qwertyuiop-12345", offset, &[0; 64]).len());
    assert_eq!(lengths, [83, 83, 84]);
}

#[test]
fn p12_a_value_between_spaces() {
    let line = b"Content-Type:  text/plain ";
    let parsed = text::field_line(line).expect("a field line");
    assert_eq!(&line[parsed.value.clone()], b"text/plain");
    assert_eq!(parsed.value.len(), 10);
}

#[test]
fn a_list_of_calls() {
    let mut calls = Calls::new();
    let stream = closed_example();
    let enough = Holds::ENOUGH;
    let short = Holds { block: 65_535, ..enough };
    let refused = |number| Word::Refused(Refusal::plain(number));

    assert_eq!(calls.answer(enough, true).word, refused(1));
    assert_eq!(calls.feed(short, &ring(), URI, &stream).word, refused(2));
    let seventeen: Vec<Record> = ring().into_iter().cycle().take(17).collect();
    assert_eq!(calls.feed(enough, &seventeen, URI, &stream).word, refused(2));
    let empty = calls.feed(enough, &ring(), URI, b"");
    assert_eq!((empty.word, empty.taken), (Word::More, 0));

    let head_length = head().len();
    let asked = calls.feed(enough, &ring(), URI, &stream);
    assert_eq!(asked.taken, head_length);
    let Word::Question(question) = asked.word else { panic!("no question") };
    assert_eq!(question.message, SIGNING_STRING.as_bytes());
    assert_eq!(question.record, 0);
    assert_eq!(calls.value(32_768, b"date"), b"");
    assert_eq!(calls.feed(enough, &ring(), URI, b"").word, refused(1));
    assert_eq!(calls.end(enough).word, refused(1));
    assert_eq!(calls.answer(short, true).word, refused(2));

    assert_eq!(calls.answer(enough, true).word, Word::HeadAccepted { status: 200 });
    assert_eq!(calls.value(32_768, b"dATe"), b"Sat, 21 Mar 2020 00:00:00 GMT");
    assert_eq!(calls.value(32_767, b"date"), b"");
    assert_eq!(calls.value(32_768, b"Trailer"), b"");
    assert_eq!(calls.value(32_768, b"(created)"), b"");

    // Neither the ring nor the URI is read again: empty ones change nothing now.
    let asked = calls.feed(enough, &[], b"", &stream[head_length..]);
    assert!(matches!(asked.word, Word::Question(_)));
    assert_eq!(asked.taken, 3 + 5 + 2 + 99);
    assert_eq!(calls.block(65_536), b"");
    assert_eq!(calls.answer(enough, true).word, Word::Block { offset: 0, length: 5 });
    assert_eq!(calls.block(65_536), b"Hello");
    assert_eq!(calls.block(65_535), b"");
    assert_eq!(calls.answer(enough, false).word, refused(1));
    assert_eq!(calls.feed(short, &[], b"", b"x").word, refused(2));
    assert_eq!(calls.block(65_536), b"Hello");
    assert_eq!(calls.feed(enough, &[], b"", b"").word, Word::More);
    assert_eq!(calls.block(65_536), b"");

    // Other bytes than the ones not taken: the reading is over the bytes taken.
    let wrong = calls.feed(enough, &[], b"", b"12345X\nmore");
    assert_eq!((wrong.word, wrong.taken), (Word::Refused(Refusal::frame(0)), 7));
    assert_eq!(calls.value(32_768, b"date"), b"Sat, 21 Mar 2020 00:00:00 GMT");
    assert_eq!(calls.feed(enough, &[], b"", b"").word, refused(1));
    assert_eq!(calls.feed(short, &[], b"", b"").word, refused(2));
    assert_eq!(calls.end(enough).word, refused(1));
    assert_eq!(calls.bytes().len(), head_length + 109 + 7);
}

#[test]
fn places_of_the_example() {
    let reading = plain::read(&closed_example(), &ring(), URI, &[true; 4], true);
    let head_length = head().len();
    let places: Vec<usize> = reading.events.iter().map(|placed| placed.place).collect();
    let first = head_length + 3 + 7 + 99;
    let second = first + 7 + 99;
    let third = second + 4 + 99;
    let whole = closed_example().len();
    assert_eq!(places, [head_length, head_length, first, first, second, second, third, third, whole]);
    assert_eq!(reading.events[8].event, Event::Closed { total: 12 });
}
