//! The generator against the second reader, in one process: the plain reading, the piecewise reader
//! and the list of calls must agree with each other and with what the generator expects.

use second::calls::{Calls, Contents, Holds, Outcome, Word};
use second::event::{Event, Refusal};
use second::files;
use second::plain::{self, Kind};
use second::reader::Reader;
use second::ring::Record;
use std::collections::BTreeMap;
use streams::answers;
use streams::case::{Case, Expected};
use streams::end;
use streams::ends;
use streams::example;
use streams::limits;
use streams::part_answer::PartAnswer;
use streams::plan::{Built, RingRecord};
use streams::random;
use streams::repeated;
use streams::rng::Rng;
use streams::sequence::{all_groups, Group, Sequence};
use streams::sodium;

/// The inputs of a case as values. Nothing for a case with malformed files.
struct Inputs {
    ring: Vec<Record>,
    uri: Vec<u8>,
    answers: Vec<bool>,
    cuts: Vec<usize>,
}

fn inputs(case: &Case) -> Option<Inputs> {
    if matches!(case.expected, Expected::Malformed { .. } | Expected::Usage) {
        return None;
    }
    let cuts = case.cuts.as_deref().unwrap_or(b"65536\n");
    Some(Inputs {
        ring: files::parse_ring(&case.ring).expect("a good ring"),
        uri: case.uri.clone(),
        answers: case.answers.iter().filter(|byte| !byte.is_ascii_whitespace()).map(|&byte| byte == b'y').collect(),
        cuts: files::parse_cuts(cuts).expect("good cuts"),
    })
}

/// The pieces of a stream after a list of cuts.
fn pieces<'a>(stream: &'a [u8], cuts: &[usize]) -> Vec<&'a [u8]> {
    let mut rest = stream;
    let mut pieces = Vec::new();
    for &cut in cuts.iter().cycle() {
        let (piece, after) = rest.split_at(cut.min(rest.len()));
        pieces.push(piece);
        rest = after;
        if rest.is_empty() {
            return pieces;
        }
    }
    pieces
}

/// The events of the piecewise reader and the bytes it released.
fn by_reader(stream: &[u8], inputs: &Inputs) -> (Vec<Event>, Vec<u8>) {
    let mut reader = Reader::new(inputs.ring.clone(), inputs.uri.clone());
    let mut answers = inputs.answers.iter();
    let (mut events, mut body) = (Vec::new(), Vec::new());
    for piece in pieces(stream, &inputs.cuts) {
        let mut rest = piece;
        loop {
            let (taken, event) = reader.feed(rest).expect("in time");
            rest = &rest[taken..];
            let Some(event) = event else { break };
            let is_final = event.is_final();
            events.push(event);
            if is_final {
                return (events, body);
            }
            let Some(&yes) = answers.next() else {
                return (events, body);
            };
            let event = reader.answer(yes).expect("a question is open");
            body.extend_from_slice(reader.block());
            let is_final = event.is_final();
            events.push(event);
            if is_final {
                return (events, body);
            }
        }
    }
    events.push(reader.end().expect("in time"));
    (events, body)
}

/// The words of a list of calls that goes on from the first byte not taken. At each call the place
/// is held against the plain reading, and the block and a value against their times.
fn by_calls(stream: &[u8], inputs: &Inputs) -> (Vec<Word>, Vec<u8>) {
    let whole = plain::read(stream, &inputs.ring, &inputs.uri, &inputs.answers, true);
    let mut calls = Calls::new();
    let mut answers = inputs.answers.iter();
    let (mut words, mut body) = (Vec::new(), Vec::new());
    let mut note = |calls: &Calls, outcome: Outcome, words: &mut Vec<Word>| {
        if outcome.word == Word::More {
            return;
        }
        assert_eq!(calls.bytes().len(), whole.events[words.len()].place);
        assert_eq!(calls.block(65_535), b"");
        body.extend_from_slice(calls.block(65_536));
        words.push(outcome.word);
    };
    for piece in pieces(stream, &inputs.cuts) {
        let mut rest = piece;
        loop {
            let outcome = calls.feed(Holds::ENOUGH, &inputs.ring, &inputs.uri, rest);
            rest = &rest[outcome.taken..];
            assert_eq!(calls.block(65_536), b"");
            if outcome.word == Word::More {
                assert!(rest.is_empty());
                break;
            }
            note(&calls, outcome, &mut words);
            if !matches!(words.last(), Some(Word::Question(_))) {
                return (words, body);
            }
            let Some(&yes) = answers.next() else {
                return (words, body);
            };
            let outcome = calls.answer(Holds::ENOUGH, yes);
            note(&calls, outcome, &mut words);
            if matches!(words.last(), Some(Word::Refused(_) | Word::Complete { .. })) {
                return (words, body);
            }
        }
    }
    let outcome = calls.end(Holds::ENOUGH);
    note(&calls, outcome, &mut words);
    (words, body)
}

fn check(case: &Case, with_calls: bool) {
    let Some(inputs) = inputs(case) else { return };
    let whole = plain::read(&case.stream, &inputs.ring, &inputs.uri, &inputs.answers, true);
    let events: Vec<Event> = whole.events.iter().map(|placed| placed.event.clone()).collect();
    let (by_reader, body) = by_reader(&case.stream, &inputs);
    assert_eq!(by_reader, events, "{}", case.label);
    if let Expected::Exactly { lines, body: expected } = &case.expected {
        let written: Vec<String> = events.iter().map(|event| event.to_string()).collect();
        assert_eq!(&written, lines, "{}", case.label);
        assert_eq!(&body, expected, "{}", case.label);
    }
    if with_calls {
        let (words, released) = by_calls(&case.stream, &inputs);
        let expected: Vec<Word> = events.into_iter().map(Word::from).collect();
        assert_eq!(words, expected, "{}", case.label);
        assert_eq!(released, body, "{}", case.label);
    }
}

#[test]
fn reader_and_plain_reading_agree() {
    let groups: Vec<Group> = all_groups().into_iter().filter(|&group| group != Group::Text).collect();
    for case in Sequence::new(11, &groups).take(7200).chain(Sequence::new(11, &[Group::Text]).take(1000)) {
        check(&case, false);
    }
}

#[test]
fn calls_agree_on_short_streams() {
    let short = |groups: &[Group]| Sequence::new(12, groups).filter(|case| case.stream.len() < 3000);
    let cases = short(&[Group::Example, Group::Damage, Group::Mixed]).take(150);
    for mut case in cases
        .chain(short(&[Group::Text]).take(60))
        .chain(short(&[Group::Repeated, Group::Asked, Group::Ends, Group::Parts]).step_by(5))
    {
        if case.cuts.as_deref() == Some(b"1\n") {
            case.cuts = Some(b"7\n0\n1\n".to_vec());
        }
        check(&case, true);
    }
}

/// The count that a feed takes, found by trying every beginning of the piece.
#[test]
fn a_feed_takes_the_shortest_beginning_that_gains_an_event() {
    assert_eq!(check_counts(&example::short_plan().build()), Word::Closed { total: 2 });
    assert_eq!(check_counts(&example::plan().build()), Word::Complete { total: 12 });
    assert_eq!(check_counts(&example::part().build()), Word::Closed { total: 7 });
}

/// All answers are yes. Gives the last word.
fn check_counts(built: &Built) -> Word {
    let stream = built.bytes();
    let ring = records(&built.ring);
    let mut calls = Calls::new();
    let mut answers = Vec::new();
    let mut done = 0;
    loop {
        let events = |count: usize| plain::read(&stream[..count], &ring, &built.uri, &answers, false).events.len();
        let before = events(done);
        let shortest = (done..=stream.len()).find(|&count| events(count) > before);
        let outcome = calls.feed(Holds::ENOUGH, &ring, &built.uri, &stream[done..]);
        assert_eq!(Some(done + outcome.taken), shortest);
        done += outcome.taken;
        let word = match outcome.word {
            Word::Question(_) => calls.answer(Holds::ENOUGH, true).word,
            other => other,
        };
        answers.push(true);
        if !matches!(word, Word::HeadAccepted { .. } | Word::Block { .. }) {
            assert_eq!(done, stream.len());
            return word;
        }
    }
}

fn records(ring: &[RingRecord]) -> Vec<Record> {
    ring.iter().map(|record| Record { key: record.key, first: record.first, last: record.last }).collect()
}

#[test]
fn the_question_names_the_first_record_that_fits() {
    let mut plan = example::plan();
    let ts = 1_584_748_800;
    let own = |first, last| RingRecord { key: plan.signer.public, first, last };
    let other = RingRecord { key: [3; 32], first: 0, last: u64::MAX };
    plan.ring = vec![own(0, ts - 1), own(ts + 1, u64::MAX), other, own(ts, ts), own(0, u64::MAX)];
    let built = plan.build();
    let reading = plain::read(&built.bytes(), &records(&built.ring), &built.uri, &[true; 5], true);
    for placed in &reading.events {
        if let Event::Question(question) = &placed.event {
            assert_eq!(question.record, 3);
            assert!(sodium::verify(&plan.signer.public, &question.message, &question.signature));
        }
    }
    assert_eq!(reading.events.len(), 10);
}

#[test]
fn the_hashes_agree() {
    let mut rng = Rng::new(3);
    for length in (0..300).chain([1000, 65_536, 65_600]) {
        let bytes = rng.bytes(length);
        assert_eq!(second::sha512::sha512([&bytes[..]]), sodium::sha512(&bytes), "{length} bytes");
        let mut hash = sodium::Sha256::default();
        hash.update(&bytes);
        let piece = rng.between(1, 200);
        assert_eq!(second::sha256::sha256(bytes.chunks(piece)), hash.finish(), "{length} bytes in pieces of {piece}");
    }
}

/// Holds filled with a mark, so that every byte that is written or left alone shows.
fn marked() -> Contents {
    let Holds { head, block, question } = Holds::ENOUGH;
    Contents { head: vec![0xaa; head], block: vec![0xbb; block], question: vec![0xcc; question] }
}

#[test]
fn what_lies_in_the_holds() {
    let built = example::plan().build();
    let ring = records(&built.ring);
    let enough = Holds::ENOUGH;
    let part = |number: usize| &built.parts[number].bytes[..];
    let mut calls = Calls::new();
    calls.feed(enough, &ring, &built.uri, part(0));
    let now = calls.contents(&marked());
    assert!(now.head.starts_with(part(0)));
    assert!(now.head[part(0).len()..].iter().all(|&byte| byte == 0xaa));
    assert!(now.question.starts_with(b"(response-status): 200\n"));
    assert!(now.question[219..].iter().all(|&byte| byte == 0xcc));
    assert_eq!(now.block, marked().block);

    calls.answer(enough, true);
    for number in 1..=3 {
        calls.feed(enough, &ring, &built.uri, part(number));
    }
    assert!(calls.contents(&marked()).block.starts_with(b"Hello\xbb\xbb"));
    calls.feed(enough, &ring, &built.uri, part(4));
    calls.answer(enough, true);
    assert_eq!(calls.block(65_536), b"Hello");
    calls.feed(enough, &ring, &built.uri, b" w");
    assert!(calls.contents(&marked()).block.starts_with(b" wllo\xbb"));

    // The two bytes gathered of the block are set to zero, the older ones behind them stay.
    calls.end(enough);
    let now = calls.contents(&marked());
    assert!(now.block.starts_with(b"\0\0llo\xbb"));
    assert!(now.head.starts_with(part(0)));
}

#[test]
fn a_refusal_after_a_release_leaves_the_block_hold_alone() {
    let built = example::plan().build();
    let ring = records(&built.ring);
    let mut calls = Calls::new();
    for part in &built.parts[..5] {
        calls.feed(Holds::ENOUGH, &ring, &built.uri, &part.bytes);
        calls.answer(Holds::ENOUGH, true);
    }
    assert_eq!(calls.end(Holds::ENOUGH).word, Word::Refused(Refusal::plain(11)));
    assert!(calls.contents(&marked()).block.starts_with(b"Hello\xbb"));
}

#[test]
fn the_same_seed_gives_the_same_cases() {
    let streams = |seed| -> Vec<Vec<u8>> {
        let groups = [Group::Mixed];
        Sequence::new(seed, &groups).take(30).map(|case| case.stream).collect()
    };
    assert_eq!(streams(4), streams(4));
    assert_ne!(streams(4), streams(5));
}

/// What is handed out of a random head, held against the lines that it was built from.
#[test]
fn values_and_counts_of_repeated_fields() {
    let (mut rng, mut signed, mut unsigned) = (Rng::new(13), 0, 0);
    for _ in 0..300 {
        let plan = repeated::plan(&mut rng);
        let built = plan.build();
        let mut calls = Calls::new();
        calls.feed(Holds::ENOUGH, &records(&built.ring), &built.uri, &built.bytes());
        assert!(matches!(calls.answer(Holds::ENOUGH, true).word, Word::HeadAccepted { .. }));
        for field in &built.head.fields {
            let same = |name: &[u8]| name.eq_ignore_ascii_case(&field.name);
            let values: Vec<&[u8]> =
                built.head.fields.iter().filter(|line| same(&line.name)).map(|line| &line.value[..]).collect();
            let is_listed = plan.listed.iter().any(|name| same(name));
            let due = if is_listed { (values[0], values.len()) } else { (&b""[..], 0) };
            let hold = Holds::ENOUGH.head;
            assert_eq!((calls.value(hold, &field.name), calls.value_count(hold, &field.name)), due);
            *if is_listed { &mut signed } else { &mut unsigned } += usize::from(values.len() > 1);
        }
    }
    assert!(signed > 1000 && unsigned > 500, "only {signed} signed lines and {unsigned} others were repeated");
}

/// What the group of repeated fields has.
#[test]
fn repeated_fields_in_all_kinds_of_heads() {
    let mut counts: BTreeMap<&str, usize> = BTreeMap::new();
    for case in Sequence::new(5, &[Group::Repeated]).filter(Case::has_repeated_field) {
        let Expected::Exactly { lines, .. } = &case.expected else { continue };
        let last = lines.last().expect("an event");
        let whole = case.stream.windows(4).position(|four| four == b"\r\n\r\n").map_or(0, |place| place + 4);
        let kind = match last.as_str() {
            "refused 4" | "refused 5" | "refused 12" => "another rule",
            "refused 10" => "wrongly signed",
            _ if last == &format!("refused 3 at {whole}") => "refused at its end",
            _ if last.starts_with("refused 3") => "a bad line",
            _ => "whole",
        };
        *counts.entry(kind).or_default() += 1;
    }
    println!("heads with a repeated field: {counts:?}");
    for (kind, least) in
        [("whole", 220), ("wrongly signed", 40), ("refused at its end", 80), ("a bad line", 40), ("another rule", 10)]
    {
        assert!(counts[kind] >= least, "{kind}: {}", counts[kind]);
    }
}

/// What the group of asked URIs has: those that are the head's, those that are not, and heads that are refused before that matters.
#[test]
fn asked_uris_in_all_kinds_of_heads() {
    let mut counts: BTreeMap<String, usize> = BTreeMap::new();
    for case in Sequence::new(5, &[Group::Asked]) {
        let Expected::Exactly { lines, .. } = case.expected else { continue };
        let number = lines[0].strip_prefix("refused ").and_then(|rest| rest.split(' ').next());
        *counts.entry(number.unwrap_or("asked about").to_string()).or_default() += 1;
    }
    println!("heads that were asked for: {counts:?}");
    for (kind, least) in [("asked about", 50), ("16", 250), ("3", 100), ("4", 200), ("5", 15), ("11", 1)] {
        assert!(counts[kind] >= least, "{kind}: {}", counts[kind]);
    }
    assert!(!counts.contains_key("12"), "a key goes before a URI");
}

/// What the group of longer heads has, and that random streams have such heads and trailers too.
#[test]
fn longer_heads_and_trailers_of_all_kinds() {
    let mut counts: BTreeMap<&str, usize> = BTreeMap::new();
    let random = Sequence::new(5, &[Group::Mixed]).take(3000);
    for (case, group) in Sequence::new(5, &[Group::Longer]).map(|case| (case, 0)).chain(random.map(|case| (case, 1))) {
        let Expected::Exactly { lines, .. } = &case.expected else { continue };
        let kind = match (lines[0].as_str(), case.has_longer_head()) {
            (first, true) if first.starts_with("question") => ["asked about", "asked about in random streams"][group],
            ("refused 16", true) => "another show",
            (first, true) if first == format!("refused 3 at {}", limits::SECTION) => "too long",
            (first, true) if first.starts_with("refused 3") => "wrong text or too many fields",
            (first, false) if first.starts_with("question") && has_longer_trailer(&case) => "trailers",
            _ => "others",
        };
        *counts.entry(kind).or_default() += 1;
    }
    println!("longer heads and trailers: {counts:?}");
    for (kind, least) in [
        ("asked about", 80),
        ("asked about in random streams", 30),
        ("another show", 12),
        ("too long", 10),
        ("wrong text or too many fields", 80),
        ("trailers", 30),
    ] {
        assert!(counts[kind] >= least, "{kind}: {}", counts[kind]);
    }
}

/// What the group of ends has, and that random streams come to an end's check too.
#[test]
fn ends_of_all_kinds() {
    let mut counts: BTreeMap<(&str, String), usize> = BTreeMap::new();
    let random = Sequence::new(5, &[Group::Mixed]).take(3000).map(|case| ("random", case));
    for (group, case) in Sequence::new(5, &[Group::Ends]).map(|case| ("ends", case)).chain(random) {
        let Expected::Exactly { lines, .. } = &case.expected else { continue };
        *counts.entry((group, last_word(lines).to_string())).or_default() += 1;
    }
    println!("ends: {counts:?}");
    for (group, kind, least) in [
        ("ends", "complete", 350),
        ("ends", "closed", 20),
        ("ends", "question", 15),
        ("ends", "10", 40),
        ("ends", "11", 100),
        ("ends", "12", 25),
        ("ends", "13", 450),
        ("ends", "14", 40),
        ("ends", "15", 25),
        ("ends", "3", 10),
        ("ends", "6", 50),
        ("random", "complete", 150),
        ("random", "13", 40),
        ("random", "14", 3),
        ("random", "15", 3),
    ] {
        let found = counts.get(&(group, kind.to_string())).copied().unwrap_or(0);
        assert!(found >= least, "{group}, {kind}: {found}");
    }
}

/// What a case comes to: its last word, or the number that it is refused with.
fn last_word(lines: &[String]) -> &str {
    let words: Vec<&str> = lines.last().expect("an event").split(' ').collect();
    if words[0] == "refused" {
        words[1]
    } else {
        words[0]
    }
}

/// What the group of part answers has, by what comes of them and whether their head was accepted, and that random streams have such answers
/// too.
#[test]
fn parts_of_all_kinds() {
    let mut counts: BTreeMap<(&str, &str, String), usize> = BTreeMap::new();
    let random = Sequence::new(5, &[Group::Mixed]).take(3000).map(|case| ("random", case));
    for (group, case) in Sequence::new(5, &[Group::Parts]).map(|case| ("parts", case)).chain(random) {
        let Expected::Exactly { lines, .. } = &case.expected else { continue };
        let is_part = case.stream.starts_with(b"HTTP/1.1 206 ");
        let kind = match lines.get(1).map(String::as_str) {
            Some("head 206") => "accepted",
            _ if is_part => "head",
            _ => "whole",
        };
        *counts.entry((group, kind, last_word(lines).to_string())).or_default() += 1;
    }
    println!("part answers: {counts:?}");
    for (group, kind, last, least) in [
        ("parts", "accepted", "closed", 350),
        ("parts", "accepted", "6", 150),
        ("parts", "accepted", "7", 100),
        ("parts", "accepted", "8", 80),
        ("parts", "accepted", "10", 15),
        ("parts", "accepted", "11", 30),
        ("parts", "accepted", "question", 8),
        ("parts", "head", "3", 12),
        ("parts", "head", "4", 230),
        ("parts", "head", "5", 4),
        ("parts", "head", "10", 4),
        ("parts", "head", "12", 1),
        ("parts", "head", "16", 2),
        ("parts", "whole", "8", 30),
        ("parts", "whole", "closed", 24),
        ("random", "accepted", "closed", 60),
        ("random", "accepted", "10", 5),
        ("random", "accepted", "11", 5),
    ] {
        let found = counts.get(&(group, kind, last.to_string())).copied().unwrap_or(0);
        assert!(found >= least, "{group}, {kind}, {last}: {found}");
    }
}

/// With real signatures a part answer of any kind gives out bytes of its show, at the offsets where they are.
#[test]
fn parts_of_one_show_are_its_bytes() {
    let mut rng = Rng::new(23);
    for _ in 0..60 {
        let show = random::full_plan(&mut rng);
        let (body, count) = (show.blocks.concat(), show.blocks.len());
        for first in 0..count {
            let answer = PartAnswer::of(&show, first..rng.between(first + 1, count));
            let built = answer.build();
            let stream = built.bytes();
            let answers = answers::verified(&stream, &built.ring, &built.uri);
            let reading = plain::read(&stream, &records(&built.ring), &built.uri, &answers, true);
            let blocks: Vec<_> = reading.events.iter().filter(|placed| placed.block.is_some()).collect();
            assert_eq!(blocks.len(), answer.plan.blocks.len());
            for placed in blocks {
                let Event::Block { offset, length } = placed.event else { panic!("no block") };
                let range = placed.block.clone().expect("its place");
                assert_eq!(stream[range], body[offset as usize..][..length as usize]);
            }
        }
    }
}

/// What is handed out of a head that tells the end: the signed fields, and none of the three unless the head lists it.
#[test]
fn what_is_handed_out_of_a_complete_show() {
    let mut rng = Rng::new(17);
    for _ in 0..100 {
        let plan = ends::plan(&mut rng);
        let built = plan.build();
        let (mut calls, stream) = (Calls::new(), built.bytes());
        loop {
            calls.feed(Holds::ENOUGH, &records(&built.ring), &built.uri, &stream[calls.bytes().len()..]);
            if let Word::Complete { total } = calls.answer(Holds::ENOUGH, true).word {
                assert_eq!(total, built.body.len() as u64);
                break;
            }
        }
        let hold = Holds::ENOUGH.head;
        for name in end::NAMES {
            assert_eq!((calls.value(hold, name.as_bytes()), calls.value_count(hold, name.as_bytes())), (&b""[..], 0));
        }
        assert_eq!(calls.value(hold, b"X-Ouinet-URI"), plan.uri());
    }
}

fn has_longer_trailer(case: &Case) -> bool {
    let inputs = inputs(case).expect("good files");
    let reading = plain::read(&case.stream, &inputs.ring, &inputs.uri, &[true; 2000], true);
    matches!(reading.sections.last(), Some((Kind::Trailer, range)) if range.len() > limits::before::SECTION)
}

/// Each kind of section is refused inside its text, and those that can be without end are refused for their length too.
#[test]
fn damaged_text_is_mostly_refused_at_a_place() {
    let mut counts: BTreeMap<String, [usize; 2]> = BTreeMap::new();
    for case in Sequence::new(5, &[Group::Text]) {
        let inputs = inputs(&case).expect("good files");
        let reading = plain::read(&case.stream, &inputs.ring, &inputs.uri, &inputs.answers, true);
        let last = reading.events.last().map(|placed| placed.event.clone());
        if let (Some(Event::Refused(Refusal { at: Some(at), .. })), Some((kind, section))) =
            (last, reading.sections.last())
        {
            counts.entry(format!("{kind:?}")).or_default()[usize::from(at == section.len())] += 1;
        }
    }
    println!("refused inside the text, at its end: {counts:?}");
    assert!(counts.values().flatten().sum::<usize>() > 3000);
    for (kind, inside, at_end) in [("Head", 900, 100), ("Line", 700, 100), ("DataEnd", 200, 0), ("Trailer", 300, 100)] {
        let [found_inside, found_at_end] = counts[kind];
        assert!(found_inside > inside && found_at_end >= at_end, "{kind}: {found_inside}, {found_at_end}");
    }
}
