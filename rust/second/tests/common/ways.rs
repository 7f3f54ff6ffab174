//! A stream read in all ways that this package has: by the plain reading, by the piecewise reader and by a list of calls. They must agree.

use second::calls::{Calls, Holds, Outcome, Word};
use second::event::Event;
use second::plain;
use second::reader::Reader;
use second::ring::Record;

const PIECES: [usize; 5] = [1, 2, 7, 100, usize::MAX];

/// The events of a stream with these answers, its end told.
pub fn events(stream: &[u8], ring: &[Record], asked: &[u8], answers: &[bool]) -> Vec<Event> {
    let reading = plain::read(stream, ring, asked, answers, true);
    let events: Vec<Event> = reading.events.into_iter().map(|placed| placed.event).collect();
    for piece in PIECES {
        assert_eq!(by_reader(stream, ring, asked, answers, piece), events, "pieces of {piece}");
    }
    let words: Vec<Word> = events.iter().cloned().map(Word::from).collect();
    assert_eq!(by_calls(stream, ring, asked, answers), words);
    events
}

/// The same by the piecewise reader alone, in pieces of this length.
pub fn by_reader(stream: &[u8], ring: &[Record], asked: &[u8], answers: &[bool], piece: usize) -> Vec<Event> {
    let mut reader = Reader::new(ring.to_vec(), asked.to_vec());
    let (mut events, mut answers, mut place) = (Vec::new(), answers.iter(), 0);
    while place < stream.len() {
        let rest = &stream[place..];
        let (taken, event) = reader.feed(&rest[..piece.min(rest.len())]).expect("in time");
        place += taken;
        let Some(event) = event else { continue };
        let is_question = matches!(event, Event::Question(_));
        events.push(event);
        if is_question {
            let Some(&yes) = answers.next() else { return events };
            events.push(reader.answer(yes).expect("a question is open"));
        }
        if events.last().is_some_and(Event::is_final) {
            return events;
        }
    }
    events.push(reader.end().expect("in time"));
    events
}

fn by_calls(stream: &[u8], ring: &[Record], asked: &[u8], answers: &[bool]) -> Vec<Word> {
    let mut calls = Calls::new();
    let (mut words, mut answers, mut place) = (Vec::new(), answers.iter(), 0);
    loop {
        let Outcome { word, taken } = calls.feed(Holds::ENOUGH, ring, asked, &stream[place..]);
        place += taken;
        let is_question = matches!(word, Word::Question(_));
        words.push(if word == Word::More { calls.end(Holds::ENOUGH).word } else { word });
        if is_question {
            let Some(&yes) = answers.next() else { return words };
            words.push(calls.answer(Holds::ENOUGH, yes).word);
        }
        if !matches!(words.last(), Some(Word::HeadAccepted { .. } | Word::Block { .. })) {
            return words;
        }
    }
}
