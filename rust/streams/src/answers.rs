//! Lists of answers: all yes, a no somewhere, running out, or by real verification.

use crate::plan::RingRecord;
use crate::rng::Rng;
use crate::sodium;
use second::event::Event;
use second::reader::Reader;
use second::ring::Record;

/// An answer's letter.
pub fn letter(yes: bool) -> u8 {
    if yes {
        b'y'
    } else {
        b'n'
    }
}

/// The text of an answers file. Some letters are followed by white space, which counts for nothing.
pub fn text(answers: &[bool], rng: &mut Rng) -> Vec<u8> {
    let mut out = Vec::with_capacity(answers.len() + 8);
    for &yes in answers {
        out.push(letter(yes));
        if rng.one_in(4) {
            out.extend(*rng.pick(&[&b"\n"[..], b" ", b"\t", b"\r\n", b"\n\n"]));
        }
    }
    out
}

/// What a reader writes with these answers, from what it writes when all are yes.
pub fn lines_with(all_yes: &[String], answers: &[bool]) -> Vec<String> {
    let mut answers = answers.iter();
    let mut lines = Vec::new();
    for line in all_yes {
        lines.push(line.clone());
        if line.starts_with("question") {
            match answers.next() {
                Some(true) => (),
                Some(false) => {
                    lines.push("refused 10".to_string());
                    return lines;
                }
                None => return lines,
            }
        }
    }
    lines
}

/// The answers that real verification gives: each question's signature over its message, held
/// against the key of its record. The questions come from the second reader.
pub fn verified(stream: &[u8], ring: &[RingRecord], uri: &[u8]) -> Vec<bool> {
    let records: Vec<Record> =
        ring.iter().map(|record| Record { key: record.key, first: record.first, last: record.last }).collect();
    let mut reader = Reader::new(records.clone(), uri.to_vec());
    let mut answers = Vec::new();
    let mut rest = stream;
    while let Ok((taken, Some(event))) = reader.feed(rest) {
        rest = &rest[taken..];
        let Event::Question(question) = event else { break };
        let yes = sodium::verify(&records[question.record].key, &question.message, &question.signature);
        answers.push(yes);
        if !yes || reader.answer(true).is_err() {
            break;
        }
    }
    answers
}
