//! The example stream through the crate, without the fields about its end: its nine events, however it is cut, and what is handed out when.
//! (`ends.rs` has it with them.)

mod common;

use common::{line, plain, ring, URI};
use ouinet_reader::{run, Ending, Event, NotDue, Reader, Refusal, Ring, RunError};
use std::io::{self, Read};
use std::sync::LazyLock;

static STREAM: LazyLock<Vec<u8>> = LazyLock::new(plain);
const LINES: &str =
    "question 219\nhead 200\nquestion 83\nblock 0 5\nquestion 83\nblock 5 5\nquestion 84\nblock 10 2\nclosed 12\n";

/// A source that gives at most so many bytes at a time, and is interrupted before each.
struct Slow<'a> {
    rest: &'a [u8],
    most: usize,
    interrupted: bool,
}

impl Read for Slow<'_> {
    fn read(&mut self, out: &mut [u8]) -> io::Result<usize> {
        self.interrupted = !self.interrupted;
        if self.interrupted {
            return Err(io::ErrorKind::Interrupted.into());
        }
        let count = self.most.min(out.len());
        self.rest.read(&mut out[..count])
    }
}

fn slow(rest: &[u8], most: usize) -> Slow<'_> {
    Slow { rest, most, interrupted: false }
}

/// The lines and the body of a run in which so many questions are answered with yes.
fn read(source: impl Read, good: usize) -> (String, Vec<u8>, Ending) {
    let (mut lines, mut body, mut asked) = (String::new(), Vec::new(), 0);
    let verify = |_: &ouinet_reader::Question| {
        asked += 1;
        asked <= good
    };
    let ending = run(source, ring(), URI, verify, |reader, event| {
        lines.push_str(&line(event));
        if let Event::Block { bytes, .. } = event {
            assert_eq!(reader.block(), *bytes);
            body.extend_from_slice(bytes);
        } else {
            assert_eq!(reader.block(), b"");
        }
        Ok::<(), RunError<io::Error>>(())
    });
    (lines, body, ending.expect("the source does not fail"))
}

#[test]
fn nine_events_however_it_is_cut() {
    for most in [1, 2, 3, 5, 64, 1000, 65_536] {
        let (lines, body, ending) = read(slow(&STREAM, most), 9);
        assert_eq!(lines, LINES, "pieces of {most}");
        assert_eq!(body, b"Hello world!");
        assert_eq!(ending, Ending::Closed { total: 12 });
    }
}

#[test]
fn bytes_behind_the_end_are_left_alone() {
    let (lines, _, _) = read(&[&STREAM[..], b"more"].concat()[..], 9);
    assert_eq!(lines, LINES);
}

#[test]
fn only_blocks_with_a_good_signature_come_out() {
    for (good, bytes) in [(0, 0), (1, 0), (2, 5), (3, 10)] {
        let (_, body, ending) = read(&STREAM[..], good);
        assert_eq!(body, b"Hello world!"[..bytes]);
        assert_eq!(ending, Ending::Refused(Refusal::BadSignature));
    }
}

#[test]
fn a_stream_that_stops_is_refused() {
    for length in 0..STREAM.len() {
        let (_, body, ending) = read(&STREAM[..length], 9);
        assert!(b"Hello world!".starts_with(&body));
        assert_eq!(ending, Ending::Refused(Refusal::Unfinished), "after {length} bytes");
    }
}

#[test]
fn an_empty_ring_trusts_nobody() {
    let ending = run(&STREAM[..], Ring::empty(), URI, |_| true, |_, _| Ok::<(), ()>(()));
    assert_eq!(ending.expect("no fault"), Ending::Refused(Refusal::Untrusted));
}

#[test]
fn questions_carry_what_a_verifier_needs() {
    let mut reader = Reader::new(ring(), URI);
    let fed = reader.feed(&STREAM).expect("in turn");
    let Some(Event::Question(question)) = fed.event else { panic!("no question") };
    assert_eq!(question.key, &ring().records()[0].key);
    assert_eq!(question.record, 0);
    assert!(question.message.starts_with(b"(response-status): 200\n(created): 1584748800\nx-ouinet-version: 4\n"));
    assert_eq!(question.message.len(), 219);
    assert_ne!(question.signature, &[0; 64]);
    assert!(STREAM[..fed.taken].ends_with(b"\r\n\r\n"));
}

#[test]
fn values_of_the_accepted_head() {
    let mut reader = Reader::new(ring(), URI);
    reader.feed(&STREAM).expect("in turn");
    assert_eq!((reader.value("Content-Type"), reader.value_count("Content-Type")), (b"".to_vec(), 0));
    assert_eq!(reader.answer(true), Ok(Event::HeadAccepted { status: 200 }));
    assert_eq!((reader.value("Content-Type"), reader.value_count("Content-Type")), (b"text/plain".to_vec(), 1));
    assert_eq!(reader.value(b"X-OUINET-URI"), b"https://example.com/hello");
    assert_eq!(reader.value_count(b"X-OUINET-URI"), 1);
    // It stands in the head and is not signed
    assert_eq!((reader.value("Transfer-Encoding"), reader.value_count("Transfer-Encoding")), (b"".to_vec(), 0));
    assert_eq!((reader.value(""), reader.value_count("")), (b"".to_vec(), 0));
}

#[test]
fn calls_out_of_turn_change_nothing() {
    let mut reader = Reader::new(ring(), URI);
    assert_eq!(reader.answer(true), Err(NotDue));
    let taken = reader.feed(&STREAM).expect("in turn").taken;
    assert_eq!(reader.feed(b"x"), Err(NotDue));
    assert_eq!(reader.end(), Err(NotDue));
    let mut other = reader.clone();
    assert_eq!(other.answer(false), Ok(Event::Refused(Refusal::BadSignature)));
    for _ in 0..2 {
        assert_eq!(other.feed(b""), Err(NotDue));
        assert_eq!(other.answer(true), Err(NotDue));
        assert_eq!(other.end(), Err(NotDue));
    }
    assert_eq!(reader.answer(true), Ok(Event::HeadAccepted { status: 200 }));
    let rest = reader.feed(&STREAM[taken..]).expect("in turn");
    assert!(matches!(rest.event, Some(Event::Question(_))));
}

#[test]
fn an_error_of_the_handler_ends_the_run() {
    let stopped =
        run(&STREAM[..], ring(), URI, |_| true, |_, event| if event.is_final() { Err("enough") } else { Ok(()) });
    assert!(matches!(stopped, Err(RunError::Stopped("enough"))));
    struct Broken;
    impl Read for Broken {
        fn read(&mut self, _: &mut [u8]) -> io::Result<usize> {
            Err(io::ErrorKind::ConnectionReset.into())
        }
    }
    let failed = run(Broken, ring(), URI, |_| true, |_, _| Ok::<(), ()>(()));
    assert!(matches!(failed, Err(RunError::Read(error)) if error.kind() == io::ErrorKind::ConnectionReset));
}
