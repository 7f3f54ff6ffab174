//! Where the safe reader says that a refused section lies, beside the second reader's list of sections: damaged texts in random pieces.

use ouinet_reader::{Event, Reader, Refusal, Ring, Section, SectionKind};
use second::event::Event as OtherEvent;
use second::files::parse_ring;
use second::plain::{self, Kind};
use streams::case::Case;
use streams::rng::Rng;
use streams::sequence::{Group, Sequence};

/// The last refusal with a place and its section, all answers yes.
fn ours(case: &Case, most: usize, rng: &mut Rng) -> Option<(u64, Section)> {
    let mut reader = Reader::new(Ring::parse(&case.ring).expect("a good ring"), case.uri.clone());
    let mut rest = &case.stream[..];
    while !rest.is_empty() {
        let length = rng.between(1, most).min(rest.len());
        let fed = reader.feed(&rest[..length]).expect("in turn");
        rest = &rest[fed.taken..];
        match fed.event {
            Some(Event::Question(_)) => drop(reader.answer(true).expect("a question is open")),
            Some(Event::Refused(Refusal::BadHead { at } | Refusal::BadFrame { at })) => {
                return Some((at, reader.refused_section().expect("a section")));
            }
            Some(_) => break,
            None => (),
        }
    }
    assert_eq!(reader.refused_section(), None, "{}", case.label);
    None
}

fn theirs(case: &Case) -> Option<(u64, Section)> {
    let ring = parse_ring(&case.ring).expect("a good ring");
    let reading = plain::read(&case.stream, &ring, &case.uri, &[true; 40], true);
    let OtherEvent::Refused(refusal) = reading.events.last()?.event else { return None };
    let (kind, range) = reading.sections.last()?;
    let kind = match kind {
        Kind::Head => SectionKind::Head,
        Kind::Line => SectionKind::ChunkLine,
        Kind::DataEnd => SectionKind::DataEnd,
        Kind::Trailer => SectionKind::Trailer,
        Kind::Data => return None,
    };
    Some((refusal.at? as u64, Section { kind, start: range.start as u64, length: range.len() as u64 }))
}

#[test]
fn refused_sections() {
    let mut rng = Rng::new(6);
    let mut found = 0;
    for case in Sequence::new(8, &[Group::Text]).take(1500) {
        let most = *rng.pick(&[1, 2, 7, 60, 1000, 100_000]);
        let due = theirs(&case);
        assert_eq!(ours(&case, most, &mut rng), due, "{} in pieces of at most {most}", case.label);
        found += usize::from(due.is_some());
    }
    assert!(found > 1000, "only {found} refusals had a place");
}
