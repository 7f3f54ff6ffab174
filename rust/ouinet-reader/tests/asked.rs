//! The URI asked for: what is refused with 16 and in which order, what is left then, and that it is read only when the head is judged. The
//! heads are the example's with edits; all answers are yes, so the signature need not fit.

mod common;

use common::{plain, ring};
use ouinet_reader::{another_show, raw, run, Ending, Event, NotDue, Reader, Refusal, Ring};
use std::sync::LazyLock;

static STREAM: LazyLock<Vec<u8>> = LazyLock::new(plain);
const URI: &str = include_str!("../../../crates/ouiread/data/uri");
const OTHER: &str = "https://example.com/other";
const PIECES: [usize; 5] = [1, 2, 7, 100, 65_536];

fn head_length() -> usize {
    STREAM.windows(4).position(|four| four == b"\r\n\r\n").expect("a head") + 4
}

/// The example's head with its first such text replaced.
fn edited(from: &str, to: &str) -> Vec<u8> {
    let head = std::str::from_utf8(&STREAM[..head_length()]).expect("a head of text");
    assert!(head.contains(from), "{from:?} is not there");
    head.replacen(from, to, 1).into_bytes()
}

/// What a head is refused with, or nothing where it is asked about: the same in pieces of any length.
fn refused_by(head: &[u8], ring: &Ring, uri: &[u8]) -> Option<Refusal> {
    let mut found = None;
    for piece in PIECES {
        let mut reader = Reader::new(ring.clone(), uri);
        let mut refused = None;
        for bytes in head.chunks(piece) {
            match reader.feed(bytes).expect("in turn").event {
                Some(Event::Refused(refusal)) => refused = Some(refusal),
                Some(Event::Question(_)) | None => (),
                Some(other) => panic!("{other:?}"),
            }
        }
        assert_eq!(reader.taken(), head.len() as u64);
        assert_eq!(reader.offered_uri().is_some(), refused == Some(Refusal::OtherUri));
        assert_eq!(*found.get_or_insert(refused), refused, "in pieces of {piece}");
    }
    found.flatten()
}

fn refused(head: &[u8], uri: impl AsRef<[u8]>) -> Option<Refusal> {
    refused_by(head, &ring(), uri.as_ref())
}

#[test]
fn the_same_bytes_and_no_others() {
    let head = &STREAM[..head_length()];
    assert_eq!(refused(head, URI), None);
    let mut others = vec![
        String::new(),
        OTHER.to_string(),
        URI.to_uppercase(),
        URI.replacen("hello", "Hello", 1),
        URI[1..].to_string(),
        URI.repeat(2),
        format!("X-Ouinet-URI: {URI}"),
    ];
    for byte in [" ", "\t", "\n", "\r\n", "\0", "/"] {
        others.extend([format!("{URI}{byte}"), format!("{byte}{URI}")]);
    }
    others.extend((0..URI.len()).map(|length| URI[..length].to_string()));
    for other in others {
        assert_eq!(refused(head, &other), Some(Refusal::OtherUri), "{other:?}");
    }
    for place in 0..URI.len() {
        let mut other = URI.as_bytes().to_vec();
        other[place] ^= 1;
        assert_eq!(refused(head, &other), Some(Refusal::OtherUri), "{place}");
    }
    let long = [URI.as_bytes(), &b"x".repeat(1_000_000)].concat();
    assert_eq!(refused(head, long), Some(Refusal::OtherUri));
}

#[test]
fn the_head_s_value_is_trimmed() {
    for value in [format!("\t {URI} \t"), format!(" {URI}  ")] {
        let head = edited(&format!(" {URI}"), &value);
        assert_eq!(refused(&head, URI), None, "{value:?}");
        assert_eq!(refused(&head, &value), Some(Refusal::OtherUri), "{value:?}");
    }
    assert_eq!(refused(&edited("X-Ouinet-URI", "x-oUINET-uri"), URI), None);
}

/// Refusals 3, 4 and 5 go before it, and 12 after.
#[test]
fn the_order() {
    let line = format!("X-Ouinet-URI: {URI}\r\n");
    for (from, to, number) in [
        ("X-Ouinet-URI:", "X-Ouinet-URI :", 3),
        (&line[..], &line.repeat(2)[..], 3),
        ("X-Ouinet-Version: 4", "X-Ouinet-Version: 5", 5),
        ("X-Ouinet-Version: 4\r\n", "", 4),
        ("200", "404", 4),
        (&line, "", 4),
        (&line, "X-Ouinet-URI:\r\n", 4),
        (&line, "X-Ouinet-URI: \t\r\n", 4),
        (" content-type\"", " content-type nowhere\"", 4),
    ] {
        let head = edited(from, to);
        for uri in [URI, OTHER, ""] {
            assert_eq!(refused(&head, uri).map(Refusal::number), Some(number), "{to:?}, asked for {uri:?}");
        }
    }
    let head = &STREAM[..head_length()];
    for (uri, refusal) in [(URI, Refusal::Untrusted), (OTHER, Refusal::OtherUri), ("", Refusal::OtherUri)] {
        assert_eq!(refused_by(head, &Ring::empty(), uri.as_bytes()), Some(refusal));
    }
}

#[test]
fn what_is_told_and_what_is_left() {
    let mut reader = Reader::new(ring(), OTHER);
    assert_eq!((reader.uri(), reader.offered_uri(), reader.another_show()), (OTHER.as_bytes(), None, None));
    let fed = reader.feed(&STREAM).expect("in turn");
    assert_eq!((fed.taken, fed.event), (head_length(), Some(Event::Refused(Refusal::OtherUri))));
    for _ in 0..2 {
        assert_eq!(reader.offered_uri(), Some(URI.as_bytes()));
        assert_eq!(reader.another_show(), Some(another_show(OTHER.as_bytes(), URI.as_bytes())));
        assert_eq!((reader.block(), reader.value("X-Ouinet-URI"), reader.refused_section()), (&b""[..], vec![], None));
        // It is final, and later calls leave it so
        assert_eq!(reader.feed(&STREAM), Err(NotDue));
        assert_eq!(reader.answer(true), Err(NotDue));
        assert_eq!(reader.end(), Err(NotDue));
    }
    let untrusted = edited(URI, "\u{1f30c}");
    let mut reader = Reader::new(Ring::empty(), OTHER);
    reader.feed(&untrusted).expect("in turn");
    let sentence = format!(r"this is another show: asked for `{OTHER}`, got `\xf0\x9f\x8c\x8c`");
    assert_eq!(reader.another_show(), Some(sentence));
}

#[test]
fn a_run_tells_its_handler() {
    let mut told = Vec::new();
    let ending = run(
        &STREAM[..],
        ring(),
        OTHER,
        |_| panic!("nothing is asked"),
        |reader, event| {
            told.push((event.is_final(), reader.another_show().expect("a sentence")));
            Ok::<(), ()>(())
        },
    );
    assert_eq!(ending.expect("no fault"), Ending::Refused(Refusal::OtherUri));
    assert_eq!(told, [(true, another_show(OTHER.as_bytes(), URI.as_bytes()))]);
    let ending = run(
        &STREAM[..],
        ring(),
        URI.to_string(),
        |_| true,
        |reader, _| {
            assert_eq!(reader.another_show(), None);
            Ok::<(), ()>(())
        },
    );
    assert_eq!(ending.expect("no fault"), Ending::Closed { total: 12 });
}

/// The raw calls are lent a URI each; only the one that comes with the head's last byte counts.
#[test]
fn it_is_read_only_when_the_head_is_judged() {
    let (mut state, mut result) = (vec![0; raw::STATE_SIZE], vec![0; raw::RESULT_SIZE]);
    let mut holds = [vec![0; raw::HEAD_SIZE], vec![0; raw::BLOCK_SIZE], vec![0; raw::QUESTION_SIZE]];
    raw::fresh(&mut state);
    let [head, block, question] = &mut holds;
    let mut lent = raw::Lent { state: &mut state, head, block, question, result: &mut result };
    let ring = ring();
    let end = head_length();
    let million = b"x".repeat(1_000_000);
    assert_eq!(raw::feed(&mut lent, ring.as_bytes(), &million, &STREAM[..10]), raw::MORE);
    assert_eq!(raw::feed(&mut lent, ring.as_bytes(), b"", &STREAM[10..end - 1]), raw::MORE);
    assert_eq!(raw::feed(&mut lent, ring.as_bytes(), URI.as_bytes(), &STREAM[end - 1..end]), raw::QUESTION);
    assert_eq!(raw::answer(&mut lent, 1), raw::HEAD);
    let mut place = end;
    let mut words = Vec::new();
    for uri in [&b""[..], OTHER.as_bytes(), &million, b"\0"] {
        words.push(raw::feed(&mut lent, ring.as_bytes(), uri, &STREAM[place..]));
        let result: &[u8; raw::RESULT_SIZE] = (&*lent.result).try_into().expect("a result");
        place += raw::Outcome::of(result).taken as usize;
        if words.last() == Some(&raw::QUESTION) {
            assert_eq!(raw::answer(&mut lent, 1), raw::BLOCK);
        }
    }
    assert_eq!(words, [raw::QUESTION, raw::QUESTION, raw::QUESTION, raw::CLOSED]);
    assert_eq!(place, STREAM.len());
}
