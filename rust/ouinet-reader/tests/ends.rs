//! The end of the show (request #101): the example with the three fields about it, in the trailer or in the head; what is refused, in which
//! order, and what is left then; and bodies whose SHA-256 is known, in blocks of many sizes. All answers are yes unless a test is about them,
//! so the signatures need not fit.

mod common;

use common::{ends, front, head_with, line, plain, ring, whole, with_trailer, Buffers, ENOUGH, URI, WHOLE_LINES};
use ouinet_reader::raw::{self, Outcome};
use ouinet_reader::{run, Ending, Event, NotDue, Reader, Refusal, SectionKind};

const PIECES: [usize; 7] = [1, 2, 3, 5, 64, 1000, 65_536];
const DIGEST: &str = "SHA-256=wFNeS+K3n/2TKRMFQ2v4iTFOSj+uwF7P/Lt98xrZ5Ro=";
const KEY: &str = "btYuS3ElYf23CpPnKSmBc1JR6rjewTr9/KjFJ7w5BiE=";
const NO_KEY: &str = "AAAAAAAAAAAAAAAAAAAAAAAAAAAAAAAAAAAAAAAAAAA=";

/// The lines and the body of a stream in pieces of at most so many bytes, all answers yes, the end told.
fn read_in(stream: &[u8], piece: usize) -> (String, Vec<u8>, Reader) {
    let mut reader = Reader::new(ring(), URI);
    let (mut lines, mut body, mut rest) = (String::new(), Vec::new(), stream);
    while !rest.is_empty() {
        let fed = reader.feed(&rest[..piece.min(rest.len())]).expect("in turn");
        rest = &rest[fed.taken..];
        let Some(event) = fed.event else { continue };
        lines.push_str(&line(&event));
        match event {
            Event::Question(_) => (),
            _ => return (lines, body, reader),
        }
        let event = reader.answer(true).expect("a question is open");
        lines.push_str(&line(&event));
        match event {
            Event::Block { bytes, .. } => body.extend_from_slice(bytes),
            _ if event.is_final() => return (lines, body, reader),
            _ => (),
        }
    }
    let told = line(&reader.end().expect("in turn"));
    (lines + &told, body, reader)
}

/// The last lines of a stream, the same in pieces of any length.
fn last_lines(stream: &[u8], count: usize) -> Vec<String> {
    let readings = PIECES.map(|piece| read_in(stream, piece).0);
    assert!(readings.iter().all(|reading| *reading == readings[0]), "{readings:?}");
    let lines: Vec<String> = readings[0].lines().map(str::to_string).collect();
    lines[lines.len().saturating_sub(count)..].to_vec()
}

/// The last line of a stream.
fn last(stream: &[u8]) -> String {
    last_lines(stream, 1).concat()
}

/// The trailer of the example with its first such text replaced.
fn edited(from: &str, to: &str) -> String {
    assert!(ends().contains(from), "{from:?} is not there");
    ends().replacen(from, to, 1)
}

/// The three lines of the trailer, each with its CR LF.
fn three() -> [&'static str; 3] {
    let lines: Vec<&str> = ends().split_inclusive("\r\n").collect();
    [lines[0], lines[1], lines[2]]
}

/// The example with these lines in its head, and this trailer.
fn with_head(lines: &str, trailer: &str) -> Vec<u8> {
    let body = &front()[head_with("", "").len()..];
    [&head_with(lines, "")[..], body, trailer.as_bytes()].concat()
}

#[test]
fn ten_events_however_it_is_cut() {
    for piece in PIECES {
        let (lines, body, reader) = read_in(&whole(), piece);
        assert_eq!((lines.as_str(), &body[..]), (WHOLE_LINES, &b"Hello world!"[..]));
        assert_eq!((reader.taken(), reader.refused_section()), (whole().len() as u64, None));
    }
    let ending = run(&whole()[..], ring(), URI, |_| true, |_, _| Ok::<(), ()>(()));
    assert_eq!(ending.expect("no fault"), Ending::Complete { total: 12 });
}

#[test]
fn without_the_three_it_is_closed() {
    assert_eq!(last(&plain()), "closed 12");
    assert_eq!(last(&with_trailer("Digests: x\r\nX-Ouinet-Data-Siz: 5\r\nX-Ouinet-Sig10: x\r\n\r\n")), "closed 12");
}

#[test]
fn what_the_last_question_is_about() {
    let mut reader = Reader::new(ring(), URI);
    let mut asked = None;
    let stream = whole();
    let mut rest = &stream[..];
    while asked.is_none() {
        let fed = reader.feed(rest).expect("in turn");
        rest = &rest[fed.taken..];
        let Some(Event::Question(question)) = fed.event else { panic!("{:?}", fed.event) };
        if rest.is_empty() {
            asked = Some((question.message.to_vec(), *question.signature, question.record));
        } else {
            reader.answer(true).expect("a question is open");
        }
    }
    let (message, signature, record) = asked.expect("a question");
    let due = format!(
        "(response-status): 200\n(created): 1584748800\nx-ouinet-version: 4\nx-ouinet-uri: https://example.com/hello\n\
         x-ouinet-injection: id=qwertyuiop-12345,ts=1584748800\ndate: Sat, 21 Mar 2020 00:00:00 GMT\ncontent-type: text/plain\n\
         digest: {DIGEST}\nx-ouinet-data-size: 12"
    );
    assert_eq!((String::from_utf8_lossy(&message).into_owned(), record), (due, 0));
    // The signature starts B+VD
    assert_eq!(signature[..3], [0x07, 0xe5, 0x43]);
    assert_eq!(reader.feed(b""), Err(NotDue));
    assert_eq!(reader.end(), Err(NotDue));
    let mut other = reader.clone();
    assert_eq!(other.answer(false), Ok(Event::Refused(Refusal::BadSignature)));
    assert_eq!(reader.answer(true), Ok(Event::Complete { total: 12 }));
    for _ in 0..2 {
        assert_eq!(reader.feed(b"more"), Err(NotDue));
        assert_eq!(reader.answer(true), Err(NotDue));
        assert_eq!(reader.end(), Err(NotDue));
    }
    // The values stay those that Sig0 signs
    assert_eq!(reader.value("Content-Type"), b"text/plain");
    assert_eq!((reader.value("Digest"), reader.value_count("digest")), (Vec::new(), 0));
    assert_eq!((reader.value_count("X-Ouinet-Data-Size"), reader.value_count("X-Ouinet-Sig1")), (0, 0));
    assert_eq!(reader.block(), b"");
}

#[test]
fn in_the_head_in_the_trailer_or_in_both() {
    for number in 0..8 {
        let part = |in_head: bool| -> String {
            let wanted = three().into_iter().enumerate().filter(|(place, _)| (number >> place & 1 == 1) == in_head);
            wanted.map(|(_, line)| line).collect()
        };
        let stream = with_head(&part(true), &format!("{}\r\n", part(false)));
        assert_eq!(last_lines(&stream, 2), ["question 303", "complete 12"], "{number}");
    }
    let all: String = three().concat();
    // In the head they are judged at the trailer's end, not before
    let wrong = all.replace("Sig1: keyId", "Sig1: keyID");
    assert_eq!(last_lines(&with_head(&wrong, "\r\n"), 2), ["block 10 2", "refused 13"]);
}

#[test]
fn the_same_written_otherwise() {
    let [digest, size, sig1] = three();
    for trailer in [
        format!("{sig1}{size}{digest}\r\n"),
        format!("A: b\r\n{digest}A: c\r\n{size}X-Ouinet-URI: x\r\n{sig1}Via:\r\n\r\n"),
        edited("Digest: ", "dIGEST:\t"),
        edited("Data-Size: 12", "data-SIZE:12 \t"),
        edited("created=1584748800, headers", "created=1584748800,headers"),
        edited("(created) x-Ouinet-version", "(CREATED) X-OUINET-Version"),
        edited("digest x-Ouinet-data-size", "DIGEST x-ouinet-DATA-size"),
    ] {
        assert_eq!(last_lines(&with_trailer(&trailer), 2), ["question 303", "complete 12"], "{trailer}");
    }
    // Its own time: a digit less
    let trailer = edited("created=1584748800", "created=158474880");
    assert_eq!(last_lines(&with_trailer(&trailer), 2), ["question 302", "complete 12"]);
}

#[test]
fn wrong_fields() {
    let [digest, size, sig1] = three();
    let mut trailers: Vec<String> = [digest, size, sig1].map(|line| format!("{line}\r\n")).to_vec();
    trailers.extend([[digest, size], [digest, sig1], [size, sig1]].map(|lines| format!("{}\r\n", lines.concat())));
    trailers.extend([digest, size, sig1].map(|line| format!("{line}{}", ends())));
    trailers.push("Digest: MD5=x\r\n\r\n".to_string());
    for (from, to) in [
        ("SHA-256=", "sha-256="),
        ("SHA-256=", "SHA-512="),
        ("SHA-256=", "SHA-256= "),
        ("5Ro=", "5Rp="),
        ("5Ro=", "5Ro"),
        ("5Ro=", "5Ro=="),
        ("5Ro=", "5Ro=, MD5=x"),
        (": 12", ":"),
        (": 12", ": 012"),
        (": 12", ": 00"),
        (": 12", ": 12345678901"),
        (": 12", ": 1 2"),
        (": 12", ": +12"),
        (": 12", ": 0xc"),
        ("keyId", "KeyId"),
        ("hs2019", "hs2020"),
        ("created=1", "created=01"),
        ("UGdAA==", "UGdAB=="),
        (" digest x-Ouinet-data-size", ""),
        (" digest x-Ouinet-data-size", " digest"),
        (" digest x-Ouinet-data-size", " x-Ouinet-data-size digest"),
        (" digest x-Ouinet-data-size", " digest  x-Ouinet-data-size"),
        (" digest x-Ouinet-data-size", " digest x-Ouinet-data-size date"),
        (" date content-type", " content-type date"),
        (" date content-type", " date"),
        ("(response-status) (created)", "(created) (response-status)"),
    ] {
        trailers.push(edited(from, to));
    }
    for trailer in trailers {
        assert_eq!(last_lines(&with_trailer(&trailer), 2), ["block 10 2", "refused 13"], "{trailer}");
    }
    for line in [digest, size, sig1] {
        assert_eq!(last(&with_head(line, ends())), "refused 13");
    }
}

#[test]
fn names_that_the_head_signs_already() {
    let body = &front()[head_with("", "").len()..];
    let [digest, size, sig1] = three();
    for (line, name, other) in [(digest, " digest", size), (size, " X-Ouinet-Data-Size", digest)] {
        let sig1 = sig1.replace("content-type", &format!("content-type{name}"));
        let trailer = format!("{other}{sig1}\r\n");
        let stream = [&head_with(line, name)[..], body, trailer.as_bytes()].concat();
        assert_eq!(last_lines(&stream, 2), ["block 10 2", "refused 13"], "{line}");
    }
    // Sig1 itself is not forbidden there, and is then a value
    let stream = [&head_with(sig1, " x-ouinet-sig1")[..], body, digest.as_bytes(), size.as_bytes(), b"\r\n"].concat();
    assert_eq!(last(&stream), "refused 13");
    let listed = sig1.replace("content-type", "content-type x-ouinet-sig1");
    let stream =
        [&head_with(&listed, " x-ouinet-sig1")[..], body, digest.as_bytes(), size.as_bytes(), b"\r\n"].concat();
    let (lines, _, reader) = read_in(&stream, 100);
    assert!(lines.ends_with("complete 12\n"), "{lines}");
    assert_eq!(reader.value_count("X-Ouinet-Sig1"), 1);
}

#[test]
fn another_size_or_digest_or_key() {
    for size in ["0", "11", "13", "120", "4294967308", "9999999999"] {
        assert_eq!(last(&with_trailer(&edited(": 12", &format!(": {size}")))), "refused 14", "{size}");
    }
    let nothing = "47DEQpj8HBSa+/TImW+5JCeuQeRkm5NMpJWZG3hSuFU=";
    assert_eq!(last(&with_trailer(&edited(&DIGEST[8..], nothing))), "refused 15");
    assert_eq!(last(&with_trailer(&edited("wFNe", "xFNe"))), "refused 15");
    assert_eq!(last(&with_trailer(&edited(KEY, NO_KEY))), "refused 12");
}

#[test]
fn in_which_order() {
    let faults = [("SHA-256=", "SHA-255=", 13), (": 12", ": 13", 14), ("wFNe", "xFNe", 15), (KEY, NO_KEY, 12)];
    for first in 0..faults.len() {
        for second in first + 1..faults.len() {
            let (from, to, refusal) = faults[first];
            let trailer = edited(from, to).replacen(faults[second].0, faults[second].1, 1);
            assert_eq!(last(&with_trailer(&trailer)), format!("refused {refusal}"));
        }
        // A wrong text goes before all
        let trailer = edited(faults[first].0, faults[first].1).replacen("\r\n\r\n", "\r\nA b\r\n\r\n", 1);
        let told = last(&with_trailer(&trailer));
        assert!(told.starts_with("refused 6 at "), "{told}");
    }
}

#[test]
fn the_trailer_is_the_section() {
    for (from, to) in [("SHA-256=", "SHA-255="), (": 12", ": 13"), ("wFNe", "xFNe"), (KEY, NO_KEY)] {
        let stream = with_trailer(&edited(from, to));
        for piece in PIECES {
            let (_, _, reader) = read_in(&stream, piece);
            let section = reader.refused_section().expect("a section");
            assert_eq!((section.kind, section.start), (SectionKind::Trailer, front().len() as u64));
            assert_eq!(section.length, (stream.len() - front().len()) as u64);
            assert_eq!(reader.accepted_head(), head_with("", ""));
        }
    }
    let (_, _, reader) = read_in(&head_with("", "").repeat(2), 5);
    assert_eq!(reader.accepted_head(), head_with("", ""));
    assert_eq!(Reader::new(ring(), URI).accepted_head(), b"");
}

#[test]
fn a_stream_that_stops_is_refused_at_every_byte() {
    let stream = whole();
    for length in 0..stream.len() {
        let (lines, body, _) = read_in(&stream[..length], 65_536);
        assert!(lines.ends_with("refused 11\n") && !lines.contains("complete"), "after {length} bytes: {lines}");
        assert!(WHOLE_LINES.starts_with(lines.trim_end_matches("refused 11\n")));
        assert!(b"Hello world!".starts_with(&body));
    }
}

#[test]
fn each_cut_in_two_gives_the_same() {
    let stream = whole();
    for place in front().len()..stream.len() {
        let mut reader = Reader::new(ring(), URI);
        let mut lines = String::new();
        for half in [&stream[..place], &stream[place..]] {
            let mut rest = half;
            while !rest.is_empty() {
                let fed = reader.feed(rest).expect("in turn");
                rest = &rest[fed.taken..];
                if let Some(event) = fed.event {
                    lines.push_str(&line(&event));
                    lines.push_str(&line(&reader.answer(true).expect("a question is open")));
                }
            }
        }
        assert_eq!(lines, WHOLE_LINES, "cut at {place}");
    }
}

/// A stream of a body in blocks of this size, with the size and this hash at its end.
fn stream_of(body: &[u8], block_size: usize, hash: &str) -> Vec<u8> {
    let extension = format!(";ouisig={}==", "A".repeat(86));
    let head = String::from_utf8(head_with("", "")).expect("a head of text");
    let mut stream = head.replace(",size=5\r\n", &format!(",size={block_size}\r\n")).into_bytes();
    for (number, block) in body.chunks(block_size).enumerate() {
        let before = if number > 0 { &extension[..] } else { "" };
        stream.extend(format!("{:x}{before}\r\n", block.len()).bytes());
        stream.extend(block);
        stream.extend(b"\r\n");
    }
    stream.extend(format!("0{}\r\n", if body.is_empty() { "" } else { &extension[..] }).bytes());
    stream.extend(ends().replace(": 12\r\n", &format!(": {}\r\n", body.len())).replace(&DIGEST[8..], hash).bytes());
    stream
}

#[test]
fn bodies_of_any_length() {
    let vector = b"abcdbcdecdefdefgefghfghighijhijkijkljklmklmnlmnomnopnopq";
    for (body, hash) in [
        (&b""[..], "47DEQpj8HBSa+/TImW+5JCeuQeRkm5NMpJWZG3hSuFU="),
        (b"abc", "ungWv48Bz+pBQUDeXa4iI7ADYaOWF3qctBD/YfIAFa0="),
        (vector, "JI1qYdIGOLjlwCaTDD5gOaM85Flk/yFn9uzt1BnbBsE="),
    ] {
        for block_size in [1, 2, 3, 7, 8, 55, 56, 57, 64, 65_536] {
            let due = format!("complete {}", body.len());
            assert_eq!(last(&stream_of(body, block_size, hash)), due, "in blocks of {block_size}");
            let other = hash.replacen(&hash[..1], "A", 1);
            assert_eq!(last(&stream_of(body, block_size, &other)), "refused 15");
        }
    }
}

#[test]
fn a_million_bytes() {
    let body = b"a".repeat(1_000_000);
    for block_size in [63, 64, 65, 1000, 65_536] {
        let stream = stream_of(&body, block_size, "zcduXJkU+5KBocfihNc+Z/GAmkiklyAOBG05zMcRLNA=");
        for piece in [1400, 65_536] {
            let (lines, out, _) = read_in(&stream, piece);
            assert!(lines.ends_with("complete 1000000\n") && out == body, "blocks of {block_size}, pieces of {piece}");
        }
    }
}

impl Buffers {
    /// Feeds a stream, all answers yes, up to its last byte. The last word.
    fn feed_all(&mut self, stream: &[u8]) -> u8 {
        let mut rest = stream;
        loop {
            let word = self.feed(ENOUGH, rest);
            rest = &rest[self.outcome().taken as usize..];
            if rest.is_empty() {
                return word;
            }
            assert_eq!(word, raw::QUESTION);
            raw::answer(&mut self.lend(ENOUGH), 1);
        }
    }

    fn number(&self, place: usize) -> u64 {
        u64::from_le_bytes(self.state[place..place + 8].try_into().expect("eight bytes"))
    }

    /// The block buffer as it must be: the trailer or zeros in its place, and as it was behind.
    fn is_cleared(&self, trailer: &str, cleared: bool) -> bool {
        let (front, behind) = self.block.split_at(trailer.len());
        let due = if cleared { vec![0; trailer.len()] } else { trailer.as_bytes().to_vec() };
        front == due && behind.iter().all(|&byte| byte == 2)
    }
}

#[test]
fn refusals_at_the_end_clear_the_trailer() {
    for (trailer, refusal) in [
        (edited("SHA-256=", "SHA-255="), 13),
        ("Digest: x\r\n\r\n".to_string(), 13),
        (edited(": 12", ": 13"), 14),
        (edited("wFNe", "xFNe"), 15),
        (edited(KEY, NO_KEY), 12),
    ] {
        let mut buffers = Buffers::fresh();
        assert_eq!(buffers.feed_all(&with_trailer(&trailer)), raw::REFUSED);
        let Outcome { first, second, .. } = buffers.outcome();
        assert_eq!((first, second), (refusal, 0));
        assert!(buffers.is_cleared(&trailer, true), "{trailer}");
        assert_eq!((buffers.number(0), buffers.number(8)), (9, refusal));
    }
    // The three in the head: the trailer's two bytes are cleared too
    let in_head = with_head(&three().concat().replace(": 12", ": 13"), "\r\n");
    let mut buffers = Buffers::fresh();
    assert_eq!(buffers.feed_all(&in_head), raw::REFUSED);
    // Behind them are bytes of the second block, which was longer than the third
    assert_eq!(buffers.block[..6], *b"\0\0orl\x02");
}

#[test]
fn the_state_at_the_end() {
    for good in [0, 1, 255] {
        let mut buffers = Buffers::fresh();
        assert_eq!(buffers.feed_all(&whole()), raw::QUESTION);
        assert_eq!((buffers.number(0), buffers.number(8), buffers.number(16)), (10, ends().len() as u64, 12));
        assert!(buffers.is_cleared(ends(), false));
        assert_eq!((buffers.number(464), &buffers.state[400..412]), (12, &b"Hello world!"[..]));
        let word = raw::answer(&mut buffers.lend(ENOUGH), good);
        let Outcome { first, second, taken, .. } = buffers.outcome();
        if good == 0 {
            assert_eq!((word, first, second, taken), (raw::REFUSED, 10, 0, 0));
            assert!(buffers.is_cleared(ends(), true));
        } else {
            assert_eq!((word, first, second, taken), (raw::COMPLETE, 12, 0, 0));
            assert!(buffers.is_cleared(ends(), false));
            assert_eq!((buffers.number(0), buffers.number(8)), (11, 12));
        }
    }
}

/// States that no stream led to: what is open is answered, what is over stays so, and no other number is a phase.
#[test]
fn forged_states() {
    for (phase, calls) in
        [(10, [raw::REFUSED, raw::COMPLETE, raw::REFUSED]), (11, [raw::REFUSED; 3]), (12, [raw::REFUSED; 3])]
    {
        for count in [0, 1, 65_536, 65_537, u64::MAX] {
            for (call, word) in calls.into_iter().enumerate() {
                let mut buffers = Buffers::fresh();
                buffers.state[..8].copy_from_slice(&u64::to_le_bytes(phase));
                buffers.state[8..16].copy_from_slice(&count.to_le_bytes());
                buffers.state[16..24].copy_from_slice(&count.to_le_bytes());
                let said = match call {
                    0 => buffers.feed(ENOUGH, b"x"),
                    1 => raw::answer(&mut buffers.lend(ENOUGH), 1),
                    _ => raw::end(&mut buffers.lend(ENOUGH)),
                };
                assert_eq!(said, word, "phase {phase}, call {call}");
                assert!(word != raw::REFUSED || buffers.outcome().first == 1);
            }
            let mut buffers = Buffers::fresh();
            buffers.state[..8].copy_from_slice(&u64::to_le_bytes(phase));
            buffers.state[8..16].copy_from_slice(&count.to_le_bytes());
            assert_eq!(raw::answer(&mut buffers.lend(ENOUGH), 0), raw::REFUSED);
            assert_eq!(buffers.outcome().first, if phase == 10 { 10 } else { 1 });
        }
    }
}
