//! Part answers through the safe reader, beside the plain reading of the second one: the events, the bytes that are handed out, and which
//! bytes of their show they are.

use ouinet_reader::{Event, Reader, Ring};
use second::event::Event as OtherEvent;
use second::files::parse_ring;
use second::plain;
use streams::case::{Case, Expected};
use streams::rng::Rng;
use streams::sequence::{Group, Sequence};

/// What a stream comes to: a line for each event, the bytes handed out, and the range as numbers.
#[derive(Debug, PartialEq, Default)]
struct Told {
    lines: Vec<String>,
    body: Vec<u8>,
    range: Option<[u64; 3]>,
}

/// A line for an event of the safe reader, as the programs write it.
fn line(event: &Event) -> String {
    match event {
        Event::Question(question) => format!("question {}", question.message.len()),
        Event::HeadAccepted { status } => format!("head {status}"),
        Event::Block { offset, bytes } => format!("block {offset} {}", bytes.len()),
        Event::Closed { total } => format!("closed {total}"),
        Event::Complete { total } => format!("complete {total}"),
        Event::Refused(refusal) => format!("refused {}", refusal.number()),
    }
}

/// By the safe reader in random pieces, all answers yes.
fn ours(case: &Case, rng: &mut Rng) -> Told {
    let mut reader = Reader::new(Ring::parse(&case.ring).expect("a good ring"), case.uri.clone());
    let (mut told, mut place) = (Told::default(), 0);
    let most = *rng.pick(&[1, 7, 60, 1000, 100_000]);
    while place < case.stream.len() {
        let end = (place + rng.between(1, most)).min(case.stream.len());
        let fed = reader.feed(&case.stream[place..end]).expect("in turn");
        place += fed.taken;
        let Some(event) = fed.event else { continue };
        told.lines.push(line(&event));
        if !matches!(event, Event::Question(_)) {
            return told;
        }
        let answered = reader.answer(true).expect("a question is open");
        told.lines.push(line(&answered));
        match answered {
            Event::Block { bytes, .. } => told.body.extend_from_slice(bytes),
            Event::Complete { .. } => return told,
            _ => (),
        }
        told.range = reader.range().map(|range| [range.first, range.last, range.total]);
    }
    told.lines.push(line(&reader.end().expect("in turn")));
    told
}

/// By the plain reading.
fn theirs(case: &Case) -> Told {
    let ring = parse_ring(&case.ring).expect("a good ring");
    let reading = plain::read(&case.stream, &ring, &case.uri, &[true; 4000], true);
    let mut told = Told::default();
    for placed in &reading.events {
        told.lines.push(match &placed.event {
            OtherEvent::Refused(refusal) => format!("refused {}", refusal.number),
            event => event.to_string(),
        });
        told.body.extend(placed.block.clone().map_or(&[][..], |range| &case.stream[range]));
    }
    told.range = reading.accepted.and_then(|head| head.part).map(|part| [part.first, part.last, part.total]);
    told
}

#[test]
fn part_answers_of_all_kinds() {
    let mut rng = Rng::new(15);
    let (mut parts, mut others) = (0, 0);
    for case in Sequence::new(10, &[Group::Example, Group::Parts]) {
        if matches!(case.expected, Expected::Malformed { .. } | Expected::Usage) {
            continue;
        }
        let due = theirs(&case);
        assert_eq!(ours(&case, &mut rng), due, "{}", case.label);
        *if due.range.is_some() { &mut parts } else { &mut others } += 1;
    }
    println!("{parts} part answers were accepted, {others} answers were whole or refused");
    assert!(parts > 800 && others > 300, "only {parts} part answers were accepted, and {others} others came");
}
