//! The constants of this crate are those of the C header.

use ouinet_reader::raw;
use ouinet_reader::Refusal;

const HEADER: &str = include_str!("../../../include/ouinet_reader.h");

/// The number that the header gives to a name.
fn defined(name: &str) -> u64 {
    let line = HEADER.lines().find_map(|line| line.strip_prefix(&format!("#define OUINET_READER_{name} ")));
    let text = line.unwrap_or_else(|| panic!("the header has no {name}"));
    let digits = text.split_whitespace().next().unwrap_or_default();
    digits.parse().unwrap_or_else(|_| panic!("{name} is {text:?}"))
}

#[test]
fn sizes() {
    for (name, size) in [
        ("STATE_SIZE", raw::STATE_SIZE),
        ("HEAD_SIZE", raw::HEAD_SIZE),
        ("BLOCK_SIZE", raw::BLOCK_SIZE),
        ("QUESTION_SIZE", raw::QUESTION_SIZE),
        ("RESULT_SIZE", raw::RESULT_SIZE),
        ("RECORD_SIZE", raw::RECORD_SIZE),
        ("RING_LIMIT", raw::RING_LIMIT),
        ("FIELD_LIMIT", raw::FIELD_LIMIT),
    ] {
        assert_eq!(defined(name), size as u64, "{name}");
    }
}

#[test]
fn words() {
    for (name, word) in [
        ("MORE", raw::MORE),
        ("QUESTION", raw::QUESTION),
        ("HEAD", raw::HEAD),
        ("BLOCK", raw::BLOCK),
        ("CLOSED", raw::CLOSED),
        ("REFUSED", raw::REFUSED),
        ("COMPLETE", raw::COMPLETE),
        ("SHORT", raw::SHORT),
    ] {
        assert_eq!(defined(name), u64::from(word), "{name}");
    }
}

#[test]
fn refusals() {
    for (name, refusal) in [
        ("BAD_HEAD", Refusal::BadHead { at: 0 }),
        ("HEAD_RULE", Refusal::HeadRule),
        ("BAD_VERSION", Refusal::BadVersion),
        ("BAD_FRAME", Refusal::BadFrame { at: 0 }),
        ("BAD_SIZE", Refusal::BadSize),
        ("BAD_OUISIG", Refusal::BadOuisig),
        ("TOO_LONG", Refusal::TooLong),
        ("BAD_SIGNATURE", Refusal::BadSignature),
        ("UNFINISHED", Refusal::Unfinished),
        ("UNTRUSTED", Refusal::Untrusted),
        ("BAD_ENDS", Refusal::BadEnds),
        ("OTHER_LENGTH", Refusal::OtherLength),
        ("OTHER_DIGEST", Refusal::OtherDigest),
        ("OTHER_URI", Refusal::OtherUri),
    ] {
        assert_eq!(defined(name), u64::from(refusal.number()), "{name}");
    }
    assert_eq!((defined("NOT_DUE"), defined("NO_ROOM")), (1, 2));
}
