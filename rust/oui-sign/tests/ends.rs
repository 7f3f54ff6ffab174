//! What is signed is read by the second reader, every signature verified: with the fields about its end a show is complete, wherever they
//! stand, and without them it is closed.

mod common;

use common::{read, signer, written, URI};
use oui_sign::show::{sum_of, Fault, Show};
use second::event::Event;
use streams::options::Options;

fn show(words: &str) -> Result<Show, String> {
    let words: Vec<String> = words.split(' ').map(str::to_string).collect();
    let mut options = Options::parse(&words, "usage")?;
    let show = Show::from(&mut options)?;
    options.done().map(|()| show)
}

/// The stream of a body.
fn signed(words: &str, body: &[u8]) -> Vec<u8> {
    written(show(words).and_then(|show| show.stream(signer())).expect("a good head"), body)
}

#[test]
fn wherever_they_stand() {
    let large: Vec<u8> = (0..200_000u32).map(|number| (number % 251) as u8).collect();
    for body in [&b""[..], b"Hello world!", &large] {
        for block_size in [5, 64, 1000, 65_536] {
            if body.len() / block_size > 1000 {
                continue;
            }
            let words = |ends: &str| format!("--uri {URI} --block-size {block_size}{ends}");
            let total = body.len() as u64;
            for (ends, last) in [
                ("", Event::Complete { total }),
                (" --ends trailer", Event::Complete { total }),
                (" --ends head", Event::Complete { total }),
                (" --ends none", Event::Closed { total }),
            ] {
                let out = read(&signed(&words(ends), body));
                assert_eq!((out.last, &out.body[..]), (last, body), "blocks of {block_size},{ends}");
            }
        }
    }
}

#[test]
fn with_fields_that_are_repeated() {
    for ends in ["head", "trailer"] {
        let words =
            format!("--uri {URI} --ends {ends} --header Via:a --header Vary:b --header via:c --header Trailer:X");
        assert_eq!(read(&signed(&words, b"abc")).last, Event::Complete { total: 3 });
    }
}

#[test]
fn a_body_that_changes_between_its_readings_gets_no_end() {
    let mut stream =
        show(&format!("--uri {URI} --ends head")).and_then(|show| show.stream(signer())).expect("a good head");
    stream.set_sum(sum_of(&b"Hello world!"[..]).expect("a body")).expect("a head with room");
    let mut out = Vec::new();
    assert!(matches!(stream.write(&b"Hello earth!"[..], &mut out), Err(Fault::Changed)));
    assert!(out.ends_with(b"\r\nc\r\nHello earth!\r\n"), "{}", out.escape_ascii());
}

#[test]
fn words_that_are_no_good() {
    for (words, complaint) in [
        ("--ends both", "--ends is head, trailer or none, not \"both\""),
        ("--header Digest:x", "--header: Digest is about the show's end and is set by --ends"),
        ("--ends none --header digest:x", "--header: digest is about the show's end and is set by --ends"),
        ("--header x-ouinet-data-SIZE:1", "--header: x-ouinet-data-SIZE is about the show's end and is set by --ends"),
        ("--ends head --ends head", "--ends is given twice\nusage"),
    ] {
        assert_eq!(show(&format!("--uri {URI} {words}")).err().as_deref(), Some(complaint));
    }
}
