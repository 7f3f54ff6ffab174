//! Parts that are cut out of a signed stream, read by the second reader with every signature verified: they have the bytes that were asked for,
//! rounded to whole blocks, at their places in the show.

mod common;

use common::{read, signer, written, Read, URI};
use oui_sign::part::{Fault, Part, Wanted};
use oui_sign::show::Show;
use second::event::Event;
use std::io::Cursor;
use streams::options::Options;

fn options(words: &str) -> Options {
    let words: Vec<String> = words.split(' ').map(str::to_string).collect();
    Options::parse(&words, "usage").expect("each has its value")
}

/// The stream of a body.
fn signed(words: &str, body: &[u8]) -> Vec<u8> {
    let show = Show::from(&mut options(&format!("--uri {URI} --id a-1 --ts 1700000000 {words}"))).expect("good words");
    written(show.stream(signer()).expect("a good head"), body)
}

fn cut(stream: &[u8], words: &str) -> Result<Vec<u8>, Fault> {
    let wanted = Wanted::from(&mut options(words)).expect("good words");
    let part = Part::survey(&mut Cursor::new(stream), &wanted)?;
    let mut out = Vec::new();
    part.write(stream, &mut out).map(|()| out)
}

#[test]
fn every_range_of_a_show() {
    let body = b"Hello world!";
    for (block_size, ends) in [(1, "none"), (4, "head"), (5, "trailer"), (12, "none"), (100, "trailer")] {
        let stream = signed(&format!("--block-size {block_size} --ends {ends}"), body);
        for from in 0..12 {
            for to in from..14 {
                let Read { first, body: part, last } =
                    read(&cut(&stream, &format!("--from {from} --to {to}")).expect("a part"));
                let start = from / block_size * block_size;
                let end = ((to / block_size + 1) * block_size).min(12);
                assert_eq!(
                    (first, &part[..]),
                    (Some(start as u64), &body[start..end]),
                    "{from} to {to} of {block_size}"
                );
                assert_eq!(last, Event::Closed { total: (end - start) as u64 });
            }
            let Read { first, body: part, .. } = read(&cut(&stream, &format!("--from {from}")).expect("a part"));
            assert_eq!(part, body[first.expect("a block") as usize..]);
        }
    }
}

#[test]
fn large_blocks() {
    let body: Vec<u8> = (0..300_000u32).map(|number| (number % 251) as u8).collect();
    let stream = signed("--block-size 65536", &body);
    for from in [0u64, 65_535, 65_536, 200_000, 299_999] {
        let Read { first, body: part, .. } = read(&cut(&stream, &format!("--from {from}")).expect("a part"));
        assert_eq!(first, Some(from / 65_536 * 65_536));
        assert!(part == body[first.expect("a block") as usize..]);
    }
}

#[test]
fn fields_that_are_repeated_stay() {
    let stream = signed("--block-size 5 --header Via:a --header Vary:b --header via:c", b"Hello world!");
    let part = cut(&stream, "--from 5").expect("a part");
    assert_eq!(read(&part).last, Event::Closed { total: 7 });
    let lines =
        String::from_utf8_lossy(&part).lines().filter(|line| line.to_ascii_lowercase().starts_with("via:")).count();
    assert_eq!(lines, 2);
}

/// What is said of a stream of which no part can be cut.
fn complaint(stream: &[u8], words: &str) -> String {
    match cut(stream, words) {
        Err(Fault::Stream(words)) => words,
        other => panic!("{other:?}"),
    }
}

#[test]
fn streams_that_are_no_good() {
    let stream = signed("--block-size 5", b"Hello world!");
    for length in 0..stream.len() {
        assert_eq!(
            complaint(&stream[..length], "--from 0"),
            "no good signed stream: refused 11, it stops before its end"
        );
    }
    let part = cut(&stream, "--from 5").expect("a part");
    assert_eq!(complaint(&part, "--from 5"), "a part answer itself, and parts are cut out of whole answers");
    assert_eq!(complaint(&signed("--block-size 5", b""), "--from 0"), "the show is empty, and has no parts");
    assert_eq!(complaint(&stream, "--from 12"), "the show has 12 bytes, so --from is at most 11, and not 12");
}

#[test]
fn a_stream_that_changes_between_its_readings() {
    let (stream, other) = (signed("--block-size 5", b"Hello world!"), signed("--block-size 5", b"Hallo world!"));
    let wanted = Wanted::from(&mut options("--from 5")).expect("good words");
    let part = Part::survey(&mut Cursor::new(&stream), &wanted).expect("a part");
    for changed in [&other[..], &signed("--block-size 5", b"Hello")] {
        let mut out = Vec::new();
        let fault = part.write(changed, &mut out);
        assert!(matches!(&fault, Err(Fault::Stream(words)) if words.contains("has changed since")), "{fault:?}");
        assert!(!out.windows(5).any(|five| five == b" worl"));
    }
}
