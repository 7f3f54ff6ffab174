//! Heads in which a field is repeated: what is asked about, what is handed out, and which fields may not be. The heads are the
//! example's with lines put in; all answers are yes, so the signature need not fit.

mod common;

use common::{head_with, ring, OWN_FIELDS, URI};
use ouinet_reader::{raw, Event, Reader, Refusal};

const PIECES: [usize; 4] = [1, 3, 100, 65_536];
/// A reader that was fed the head in pieces, and its last word.
fn fed(head: &[u8], piece: usize) -> (Reader, Option<Refusal>) {
    let mut reader = Reader::new(ring(), URI);
    let mut refused = None;
    for piece in head.chunks(piece) {
        match reader.feed(piece).expect("in turn").event {
            Some(Event::Refused(refusal)) => refused = Some(refusal),
            Some(Event::Question(_)) | None => (),
            Some(other) => panic!("{other:?}"),
        }
    }
    (reader, refused)
}

/// The message of the question about a head.
fn message(head: &[u8]) -> String {
    let mut reader = Reader::new(ring(), URI);
    match reader.feed(head).expect("in turn").event {
        Some(Event::Question(question)) => String::from_utf8(question.message.to_vec()).expect("text"),
        other => panic!("{other:?}"),
    }
}

#[test]
fn values_are_joined_in_order() {
    for (lines, joined) in [
        ("Vary: a\r\nVary: b\r\n", "a, b"),
        ("Vary:\r\nVary: b\r\nVary:\r\n", ", b, "),
        ("vARY: \t b, c \r\nVia: x\r\nVARY:a\r\nVia: y\r\n", "b, c, a"),
        ("Vary: a\r\n", "a"),
    ] {
        let message = message(&head_with(lines, " vary"));
        assert!(message.ends_with(&format!("\ncontent-type: text/plain\nvary: {joined}")), "{message:?}");
    }
    let unsigned = message(&head_with("Vary: a\r\nVary: b\r\n", ""));
    assert_eq!(unsigned.len(), 219);
}

#[test]
fn the_first_value_and_the_count() {
    let lines = "Vary:\r\nvary: b\r\nVARY: c, d\r\nVia: 1.1 x\r\nEmpty:\r\nvia: 1.1 y\r\nAge: 1\r\nAge: 2\r\n";
    let table: [(&str, &[u8], usize); 10] = [
        ("Vary", b"", 3),
        ("vARY", b"", 3),
        ("via", b"1.1 x", 2),
        ("empty", b"", 1),
        ("Content-Type", b"text/plain", 1),
        // Not signed, in brackets, in no line
        ("age", b"", 0),
        ("X-Ouinet-Sig0", b"", 0),
        ("(created)", b"", 0),
        ("nowhere", b"", 0),
        ("", b"", 0),
    ];
    for piece in PIECES {
        let (mut reader, _) = fed(&head_with(lines, " vary VIA empty"), piece);
        let handed = |reader: &Reader, name: &str| (reader.value(name), reader.value_count(name));
        for (name, ..) in table {
            assert_eq!(handed(&reader, name), (Vec::new(), 0), "{name} before the head is accepted");
        }
        assert_eq!(reader.answer(true), Ok(Event::HeadAccepted { status: 200 }));
        for (name, value, count) in table {
            assert_eq!(handed(&reader, name), (value.to_vec(), count), "{name}");
        }
        reader.end().expect("in turn");
        for (name, value, count) in table {
            assert_eq!(handed(&reader, name), (value.to_vec(), count), "{name} after the end");
        }
    }
}

#[test]
fn no_count_from_short_buffers() {
    let head = head_with("Vary: a\r\nVary: b\r\n", " vary");
    let ring = ring();
    let (mut state, mut result) = (vec![0; raw::STATE_SIZE], vec![0; raw::RESULT_SIZE]);
    let mut holds = [vec![0; raw::HEAD_SIZE], vec![0; raw::BLOCK_SIZE], vec![0; raw::QUESTION_SIZE]];
    raw::fresh(&mut state);
    let [head_hold, block, question] = &mut holds;
    let mut lent = raw::Lent { state: &mut state, head: head_hold, block, question, result: &mut result };
    assert_eq!(raw::feed(&mut lent, ring.as_bytes(), URI, &head), raw::QUESTION);
    assert_eq!(raw::value_count(lent.state, lent.head, b"vary"), 0);
    assert_eq!(raw::answer(&mut lent, 1), raw::HEAD);
    assert_eq!(raw::value_count(lent.state, lent.head, b"vary"), 2);
    assert_eq!(raw::value_count(&lent.state[..raw::STATE_SIZE - 1], lent.head, b"vary"), 0);
    assert_eq!(raw::value_count(lent.state, &lent.head[..raw::HEAD_SIZE - 1], b"vary"), 0);
}

#[test]
fn lines_are_counted_up_to_the_limit() {
    let lines = |count: usize| "Vary: x\r\n".repeat(count);
    let most = raw::FIELD_LIMIT - OWN_FIELDS;
    for piece in PIECES {
        let (mut reader, _) = fed(&head_with(&lines(most), " vary"), piece);
        assert_eq!(reader.answer(true), Ok(Event::HeadAccepted { status: 200 }));
        assert_eq!(reader.value_count("Vary"), most);
        let head = head_with(&lines(most + 1), " vary");
        assert_eq!(fed(&head, piece).1, Some(Refusal::BadHead { at: head.len() as u64 }));
    }
}

#[test]
fn fields_that_may_come_only_once() {
    for name in ["X-Ouinet-A", "x-ouinet-", "X-OUINET-URI", "Content-Length", "TRANSFER-ENCODING"] {
        let lines = format!("{name}: 1\r\n{}: 1\r\n", name.to_lowercase());
        let head = head_with(&lines, "");
        for piece in PIECES {
            assert_eq!(fed(&head, piece).1, Some(Refusal::BadHead { at: head.len() as u64 }), "{name}");
        }
    }
    for name in ["X-Ouinet", "Content-Length-A", "Transfer-Encodings", "Date", "X_Ouinet-A"] {
        let head = head_with(&format!("{name}: 1\r\n{}: 1\r\n", name.to_lowercase()), "");
        assert_eq!(fed(&head, 7).1, None, "{name}");
    }
    let listed_twice = head_with("Vary: a\r\nVary: b\r\n", " vary VARY");
    assert_eq!(fed(&listed_twice, 7).1, Some(Refusal::HeadRule));
}
