//! Longer heads: both sides of each limit that request #108 moves, and of those that stay beside them. Signatures are stand-ins,
//! since the readings ask about them and never check them.

mod common;

use common::{head_with, ring};
use second::calls::{Calls, Contents, Holds, Outcome, Word};
use second::event::{Event, Refusal};
use second::plain;
use second::reader::Reader;

const PIECES: [usize; 4] = [1, 1000, 8192, 65_536];
/// How many fields a head has beside the ones that are given, and how many names its list has of itself.
const OWN_FIELDS: usize = 6;
const OWN_LISTED: usize = 5;

/// A good head of so many bytes, filled by the value of a field that is listed or not.
fn head_of(length: usize, listed: &str) -> String {
    let lacking = length - head_with(" u", "Fill:\r\n", listed).len();
    let head = head_with(" u", &format!("Fill:{}\r\n", "x".repeat(lacking)), listed);
    assert_eq!(head.len(), length);
    head
}

/// The last event of a stream, all answers yes, and how many bytes were taken: by the plain reading, and by the piecewise reader
/// in pieces of several lengths, which must all agree.
fn last(stream: &[u8]) -> (Event, usize) {
    let reading = plain::read(stream, &ring(), b"u", &[true; 9], true);
    let placed = reading.events.last().expect("an event");
    let found = (placed.event.clone(), placed.place);
    for piece in PIECES {
        assert_eq!(by_reader(stream, piece), found, "pieces of {piece}");
    }
    found
}

fn by_reader(stream: &[u8], piece: usize) -> (Event, usize) {
    let mut reader = Reader::new(ring(), b"u".to_vec());
    let mut place = 0;
    while place < stream.len() {
        let rest = &stream[place..];
        let (taken, event) = reader.feed(&rest[..piece.min(rest.len())]).expect("in time");
        place += taken;
        match event {
            Some(Event::Question(_)) => drop(reader.answer(true).expect("a question is open")),
            Some(event) => return (event, place),
            None => (),
        }
    }
    (reader.end().expect("in time"), place)
}

/// The stream of this head and an empty body is read to its end.
fn is_good(head: &str) {
    let stream = format!("{head}0\r\n\r\n");
    assert_eq!(last(stream.as_bytes()), (Event::Closed { total: 0 }, stream.len()));
}

/// Some bytes are refused, when so many were taken.
fn is_refused(stream: &[u8], refusal: Refusal, taken: usize) {
    assert_eq!(last(&[stream, b"more"].concat()), (Event::Refused(refusal), taken));
}

#[test]
fn the_length_of_a_head() {
    for listed in ["", "fill"] {
        for length in [8192, 8193, 32_767, 32_768] {
            is_good(&head_of(length, listed));
        }
        for length in [32_769, 32_770, 40_000] {
            is_refused(head_of(length, listed).as_bytes(), Refusal::head(32_768), 32_768);
        }
    }
    // Without an end
    assert_eq!(last(&b"x".repeat(32_767)), (Event::Refused(Refusal::plain(11)), 32_767));
    is_refused(&b"x".repeat(32_768), Refusal::head(32_768), 32_768);
    // Bad text within the limit, behind what was the limit before
    let bad = head_of(32_768, "").replacen("Transfer-Encoding:", "Transfer-Encoding", 1);
    let place = bad.find("Transfer-Encoding").expect("a line") + "Transfer-Encoding".len();
    assert!(place > 8192);
    is_refused(bad.as_bytes(), Refusal::head(place), 32_767);
}

/// What is asked about the longest head fits into the shortest question hold.
#[test]
fn the_question_of_the_longest_head() {
    let head = head_of(32_768, "fill");
    let mut calls = Calls::new();
    let asked = calls.feed(Holds::ENOUGH, &ring(), b"u", head.as_bytes());
    let Word::Question(question) = asked.word else { panic!("no question") };
    assert!((32_000..32_768).contains(&question.message.len()), "{}", question.message.len());
    assert_eq!(calls.answer(Holds::ENOUGH, true).word, Word::HeadAccepted { status: 200 });
    assert!(calls.value(32_768, b"Fill").len() > 32_000);
}

/// So many fields in all, each of another name or all of one.
fn fields(count: usize) -> [String; 2] {
    let numbers = OWN_FIELDS..count;
    [numbers.clone().map(|number| format!("f{number}: x\r\n")).collect(), "Vary: x\r\n".repeat(numbers.len())]
}

#[test]
fn the_number_of_fields() {
    for count in [64, 65, 127, 128] {
        fields(count).iter().for_each(|lines| is_good(&head_with(" u", lines, "")));
        is_good(&head_with(" u", &fields(count)[1], "vary"));
    }
    for count in [129, 130, 200] {
        for lines in fields(count) {
            let head = head_with(" u", &lines, "");
            is_refused(head.as_bytes(), Refusal::head(head.len()), head.len());
        }
    }
}

/// Two far apart, of as many fields as can be, have one name that may come once.
#[test]
fn a_name_twice_in_a_head_of_many() {
    let [mut lines, _] = fields(126);
    lines = format!("X-Ouinet-A: 1\r\n{lines}x-ouinet-a: 2\r\n");
    let head = head_with(" u", &lines, "");
    is_refused(head.as_bytes(), Refusal::head(head.len()), head.len());
}

/// A trailer after no block, and after one.
fn behind_blocks() -> [String; 2] {
    let head = head_with(" u", "", "");
    [format!("{head}0\r\n"), format!("{head}5\r\nHello\r\n0;ouisig={}==\r\n", "A".repeat(86))]
}

fn trailer_is_good(trailer: &[u8]) {
    for (front, total) in behind_blocks().iter().zip([0, 5]) {
        let stream = [front.as_bytes(), trailer].concat();
        assert_eq!(last(&[&stream[..], b"more"].concat()), (Event::Closed { total }, stream.len()));
    }
}

fn trailer_of(length: usize) -> Vec<u8> {
    [b"a:", &b"x".repeat(length - 6)[..], b"\r\n\r\n"].concat()
}

#[test]
fn the_length_of_a_trailer() {
    for length in [8192, 8193, 32_767, 32_768] {
        trailer_is_good(&trailer_of(length));
    }
    for trailer in [trailer_of(32_769), trailer_of(40_000), b"a".repeat(32_768)] {
        for front in behind_blocks() {
            let stream = [front.as_bytes(), &trailer].concat();
            is_refused(&stream, Refusal::frame(32_768), front.len() + 32_768);
        }
    }
}

#[test]
fn the_fields_of_a_trailer_are_not_counted() {
    for count in [128, 129, 200, 5461] {
        trailer_is_good(&[&b"a: b\r\n".repeat(count)[..], b"\r\n"].concat());
    }
}

// ---- holds

/// Holds of which one is too short, by a byte or as it was enough before.
fn short_holds() -> Vec<Holds> {
    let enough = Holds::ENOUGH;
    let mut all: Vec<Holds> = [0, 8191, 8192, 8193, 32_767]
        .into_iter()
        .flat_map(|length| [Holds { head: length, ..enough }, Holds { question: length, ..enough }])
        .collect();
    all.push(Holds { block: 65_535, ..enough });
    all.push(Holds { block: 32_768, ..enough });
    all.push(Holds { head: 8192, block: 65_536, question: 8192 });
    all
}

#[test]
fn holds_that_are_enough() {
    assert_eq!(Holds::ENOUGH, Holds { head: 32_768, block: 65_536, question: 32_768 });
    let stream = head_of(32_768, "fill");
    for more in [0, 1, 1000] {
        let Holds { head, block, question } = Holds::ENOUGH;
        let holds = Holds { head: head + more, block: block + more, question: question + more };
        let mut calls = Calls::new();
        assert!(matches!(calls.feed(holds, &ring(), b"u", stream.as_bytes()).word, Word::Question(_)));
        assert_eq!(calls.answer(holds, true).word, Word::HeadAccepted { status: 200 });
        assert_eq!(calls.end(holds).word, Word::Refused(Refusal::plain(11)));
    }
}

/// With holds that are too short each call is refused with 2, and nothing is changed.
fn check_short(calls: &Calls) {
    let Holds { head, block, question } = Holds::ENOUGH;
    let marks = Contents { head: vec![1; head], block: vec![2; block], question: vec![3; question] };
    let refused = Outcome { word: Word::Refused(Refusal::plain(2)), taken: 0 };
    for holds in short_holds() {
        let mut tried = calls.clone();
        assert_eq!(tried.feed(holds, &ring(), b"u", b"HTTP/1.1 200 OK\r\n"), refused, "{holds:?}");
        assert_eq!(tried.answer(holds, true), refused, "{holds:?}");
        assert_eq!(tried.answer(holds, false), refused, "{holds:?}");
        assert_eq!(tried.end(holds), refused, "{holds:?}");
        assert_eq!(tried.bytes(), calls.bytes());
        assert_eq!(tried.contents(&marks), calls.contents(&marks));
        assert_eq!(tried.reading().events, calls.reading().events);
        assert_eq!(tried.block(65_536), calls.block(65_536));
    }
}

#[test]
fn holds_that_are_too_short() {
    let stream = format!("{}5\r\nHello\r\n0;ouisig={}==\r\n", head_of(9000, ""), "A".repeat(86)).into_bytes();
    let mut calls = Calls::new();
    check_short(&calls);
    // Inside the head, with a question open, after the head, with a block out, and at the end, where 2 goes before 1
    calls.feed(Holds::ENOUGH, &ring(), b"u", &stream[..8500]);
    check_short(&calls);
    calls.feed(Holds::ENOUGH, &ring(), b"u", &stream[8500..]);
    check_short(&calls);
    assert_eq!(calls.answer(Holds::ENOUGH, true).word, Word::HeadAccepted { status: 200 });
    check_short(&calls);
    calls.feed(Holds::ENOUGH, &ring(), b"u", &stream[9000..]);
    assert_eq!(calls.answer(Holds::ENOUGH, true).word, Word::Block { offset: 0, length: 5 });
    check_short(&calls);
    assert_eq!(calls.block(65_536), b"Hello");
    assert_eq!(calls.feed(Holds::ENOUGH, &ring(), b"u", b"\r\n").word, Word::Closed { total: 5 });
    check_short(&calls);
}

#[test]
fn values_from_short_holds() {
    let lines = format!("Vary: a\r\nVary: b\r\nLate: {}\r\n", "x".repeat(20_000));
    let mut calls = Calls::new();
    calls.feed(Holds::ENOUGH, &ring(), b"u", head_with(" u", &lines, "vary late").as_bytes());
    assert_eq!(calls.answer(Holds::ENOUGH, true).word, Word::HeadAccepted { status: 200 });
    for (name, length, count) in [(&b"vary"[..], 1, 2), (b"Late", 20_000, 1), (b"X-Ouinet-URI", 1, 1)] {
        for hold in [0, 8191, 8192, 8193, 32_767] {
            assert_eq!((calls.value(hold, name), calls.value_count(hold, name)), (&b""[..], 0), "{hold}");
        }
        for hold in [32_768, 32_769, 65_536] {
            assert_eq!((calls.value(hold, name).len(), calls.value_count(hold, name)), (length, count), "{hold}");
        }
    }
}

// ---- what stays

#[test]
fn the_length_of_a_line() {
    let head = head_of(32_768, "");
    let line = |length: usize| [head.as_bytes(), &b"1".repeat(length)].concat();
    assert_eq!(last(&line(127)), (Event::Refused(Refusal::plain(11)), 32_768 + 127));
    is_refused(&line(128), Refusal::frame(128), 32_768 + 128);
}

/// 32 names are listed at most, the two in brackets among them.
#[test]
fn the_number_of_listed_names() {
    let [lines, _] = fields(128);
    for count in [31, 32, 33, 34] {
        let numbers = OWN_FIELDS..OWN_FIELDS + count - OWN_LISTED;
        let listed: Vec<String> = numbers.map(|number| format!("f{number}")).collect();
        let head = head_with(" u", &lines, &listed.join(" "));
        if count <= 32 {
            is_good(&head);
        } else {
            is_refused(head.as_bytes(), Refusal::plain(4), head.len());
        }
    }
}
