//! Where a text went wrong: the place that a refusal carries, and the section that it is counted from, however the stream is cut.

mod common;

use common::{ring, STREAM, URI};
use ouinet_reader::{Event, Reader, Refusal, Section, SectionKind};

const PIECES: [usize; 6] = [1, 2, 3, 7, 100, 65_536];

/// The last event of a stream in pieces of one length, all answers yes.
fn refused(stream: &[u8], piece: usize) -> (Refusal, Reader) {
    let mut reader = Reader::new(ring(), URI);
    let mut place = 0;
    while place < stream.len() {
        let end = stream.len().min(place + piece);
        let fed = reader.feed(&stream[place..end]).expect("in turn");
        place += fed.taken;
        match fed.event {
            Some(Event::Question(_)) => drop(reader.answer(true).expect("a question is open")),
            Some(Event::Refused(refusal)) => return (refusal, reader),
            Some(other) => panic!("{other:?}"),
            None => (),
        }
        assert_eq!((reader.taken(), reader.refused_section()), (place as u64, None));
    }
    let Event::Refused(refusal) = reader.end().expect("in turn") else { panic!("not refused") };
    (refusal, reader)
}

/// The stream is refused with this, in this section, the last byte of which is the last one taken.
fn check(stream: &[u8], refusal: Refusal, kind: SectionKind, start: usize, length: usize) {
    let section = Section { kind, start: start as u64, length: length as u64 };
    for piece in PIECES {
        let (found, reader) = refused(stream, piece);
        let shown = stream[start..].escape_ascii().to_string();
        assert_eq!((found, reader.refused_section()), (refusal, Some(section)), "{shown:.80} in pieces of {piece}");
        assert_eq!(reader.taken(), (start + length) as u64);
        assert_eq!(reader.block(), b"");
    }
}

fn head(head: &[u8], at: u64) {
    check(&[head, b"more"].concat(), Refusal::BadHead { at }, SectionKind::Head, 0, head.len());
}

#[test]
fn heads() {
    head(b"\r\n\r\n", 0);
    head(b"HTTP/1.0 200 OK\r\n\r\n", 7);
    head(b"HTTP/1.1 20\r\n\r\n", 11);
    head(b"HTTP/1.1 2000 OK\r\n\r\n", 12);
    head(b"HTTP/1.1 200 OK\r\nA: b\rc\r\n\r\n", 17 + 5);
    head(b"HTTP/1.1 200 OK\r\nA: b\nc\r\n\r\n", 17 + 4);
    head(b"HTTP/1.1 200 OK\r\n\rA: b\r\n\r\n", 17 + 1);
    let doubled = b"HTTP/1.1 200 OK\r\nX-Ouinet-A: b\r\nx-ouinet-a: c\r\n\r\n";
    head(doubled, doubled.len() as u64);
    let fields: String = (0..129).map(|number| format!("f{number}:\r\n")).collect();
    let many = format!("HTTP/1.1 200 OK\r\n{fields}\r\n");
    head(many.as_bytes(), many.len() as u64);
    // Bad text goes before both
    let both = format!("HTTP/1.1 200 OK\r\n{fields}X-Ouinet-A:\r\nX-Ouinet-A:\r\nA b\r\n\r\n");
    head(both.as_bytes(), both.len() as u64 - 6);
    head(&b"x".repeat(32_768), 32_768);
}

/// Where the body starts, and the parts of the example's body.
fn body() -> (usize, Vec<&'static [u8]>) {
    let start = STREAM.windows(4).position(|four| four == b"\r\n\r\n").expect("a head") + 4;
    let mut parts = Vec::new();
    let mut rest = &STREAM[start..];
    for data in [5, 5, 2, 0] {
        let line = rest.windows(2).position(|two| two == b"\r\n").expect("a line") + 2;
        for length in [line, data, if data > 0 { 2 } else { 0 }] {
            let (part, after) = rest.split_at(length);
            parts.push(part);
            rest = after;
        }
    }
    parts.push(rest);
    (start, parts)
}

/// A part of the example, counted from the first line, replaced by these bytes, and nothing after them.
fn frame(part: usize, bytes: &[u8], kind: SectionKind, at: u64) {
    let (start, parts) = body();
    let before = start + parts[..part].concat().len();
    check(&[&STREAM[..before], bytes].concat(), Refusal::BadFrame { at }, kind, before, bytes.len());
}

#[test]
fn chunk_lines() {
    for part in [0, 3, 6, 9] {
        frame(part, b"\r\n", SectionKind::ChunkLine, 0);
        frame(part, b"5 \r\n", SectionKind::ChunkLine, 1);
        frame(part, b"5\r\r\n", SectionKind::ChunkLine, 2);
        frame(part, b"000000005\r\n", SectionKind::ChunkLine, 8);
        frame(part, b"5;OUISIG=\r\n", SectionKind::ChunkLine, 2);
        frame(part, b"5;ouiSig=\r\n", SectionKind::ChunkLine, 5);
        frame(part, b"5;ouihash=\r\n", SectionKind::ChunkLine, 10);
        frame(part, b"5;ouihasg=\r\n", SectionKind::ChunkLine, 8);
        frame(part, &[&b"x".repeat(126)[..], b"\r\n"].concat(), SectionKind::ChunkLine, 0);
        frame(part, &b"1".repeat(128), SectionKind::ChunkLine, 128);
        let spare = [b"0;ouisig=", &b"A".repeat(85)[..], b"B==\r\n"].concat();
        frame(part, &spare, SectionKind::ChunkLine, 9 + 85);
    }
}

#[test]
fn data_ends() {
    for part in [2, 5, 8] {
        frame(part, b"XY", SectionKind::DataEnd, 0);
        frame(part, b"\n\r", SectionKind::DataEnd, 0);
        frame(part, b"\rX", SectionKind::DataEnd, 1);
    }
}

#[test]
fn trailers() {
    frame(12, b"\rA: b\r\n\r\n", SectionKind::Trailer, 1);
    frame(12, b"A: b\r\nC d\r\n\r\n", SectionKind::Trailer, 7);
    frame(12, b"A: b\r\nC: d\x7f\r\n\r\n", SectionKind::Trailer, 10);
    frame(12, &b"a".repeat(32_768), SectionKind::Trailer, 32_768);
    let (start, parts) = body();
    let mut empty = STREAM[..start].to_vec();
    empty.extend(b"0\r\n");
    empty.extend(b" \r\n\r\n");
    check(&empty, Refusal::BadFrame { at: 0 }, SectionKind::Trailer, start + 3, 5);
    assert_eq!(parts.len(), 13);
}

#[test]
fn other_refusals_have_no_section() {
    let (start, parts) = body();
    for (rest, refusal) in
        [(&b"6\r\n"[..], Refusal::BadSize), (b"5\r\nHell", Refusal::Unfinished), (b"", Refusal::Unfinished)]
    {
        let (found, reader) = refused(&[&STREAM[..start], rest].concat(), 5);
        assert_eq!((found, reader.refused_section()), (refusal, None));
        assert_eq!(reader.value("Content-Type"), b"text/plain");
    }
    let (found, reader) = refused(&[&STREAM[..start], parts[3]].concat(), 5);
    assert_eq!((found, found.at(), reader.refused_section()), (Refusal::BadOuisig, None, None));
}
