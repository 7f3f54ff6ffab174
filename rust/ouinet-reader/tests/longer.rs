//! Heads and trailers at their limits, and buffers that are a byte too short or as long as they had to be before request #108. The heads are
//! the example's with lines put in; all answers are yes, so the signature need not fit.

mod common;

use common::{head_with, ring, Buffers, ENOUGH, OWN_FIELDS, STREAM, URI};
use ouinet_reader::raw::{self, Outcome};
use ouinet_reader::{Event, Reader, Refusal};

const PIECES: [usize; 4] = [1, 1000, 8192, 65_536];
/// Lengths of a head or question buffer that will not do.
const TOO_SHORT: [usize; 5] = [0, 8191, 8192, 8193, 32_767];

/// The example's head made so long.
fn head_of(length: usize) -> Vec<u8> {
    let lacking = length - head_with("Fill:\r\n", "").len();
    head_with(&format!("Fill:{}\r\n", "x".repeat(lacking)), "")
}

/// The last event of a stream, as long as it is the same in pieces of any length: the refusal, or nothing for a closed one. And how many
/// bytes were taken.
fn read(stream: &[u8]) -> (Option<Refusal>, u64) {
    let readings = PIECES.map(|piece| read_in(stream, piece));
    assert!(readings.iter().all(|reading| *reading == readings[0]), "{readings:?}");
    readings[0]
}

fn read_in(stream: &[u8], piece: usize) -> (Option<Refusal>, u64) {
    let mut reader = Reader::new(ring(), URI);
    let mut rest = stream;
    loop {
        let fed = reader.feed(&rest[..piece.min(rest.len())]).expect("in turn");
        let taken = fed.taken;
        let last = match fed.event {
            Some(Event::Refused(refusal)) => Some(Some(refusal)),
            Some(Event::Closed { .. }) => Some(None),
            Some(Event::Question(_)) => {
                reader.answer(true).expect("a question is open");
                None
            }
            _ => None,
        };
        if let Some(last) = last {
            return (last, reader.taken());
        }
        assert!(taken > 0, "the stream has no end");
        rest = &rest[taken..];
    }
}

/// A stream of this head, an empty body and this trailer.
fn stream_of(head: &[u8], trailer: &[u8]) -> Vec<u8> {
    [head, b"0\r\n", trailer].concat()
}

fn is_good(stream: &[u8]) {
    assert_eq!(read(&[stream, b"more"].concat()), (None, stream.len() as u64));
}

fn is_refused(stream: &[u8], refusal: Refusal, taken: usize) {
    assert_eq!(read(&[stream, b"more"].concat()), (Some(refusal), taken as u64));
}

#[test]
fn lengths_of_heads() {
    for length in [8192, 8193, 32_767, 32_768] {
        is_good(&stream_of(&head_of(length), b"\r\n"));
    }
    for length in [32_769, 40_000] {
        is_refused(&head_of(length), Refusal::BadHead { at: 32_768 }, 32_768);
    }
}

#[test]
fn numbers_of_fields() {
    let names = |count| (OWN_FIELDS..count).map(|number| format!("f{number}: x\r\n")).collect::<String>();
    for count in [64, 65, 127, 128] {
        is_good(&stream_of(&head_with(&names(count), ""), b"\r\n"));
    }
    for count in [129, 200] {
        let head = head_with(&names(count), "");
        is_refused(&head, Refusal::BadHead { at: head.len() as u64 }, head.len());
    }
}

#[test]
fn trailers() {
    let head = head_with("", "");
    let trailer = |length: usize| [b"a:", &b"x".repeat(length - 6)[..], b"\r\n\r\n"].concat();
    for length in [8192, 8193, 32_767, 32_768] {
        is_good(&stream_of(&head, &trailer(length)));
    }
    is_good(&stream_of(&head, &[&b"a: b\r\n".repeat(5461)[..], b"\r\n"].concat()));
    for length in [32_769, 40_000] {
        let taken = head.len() + 3 + 32_768;
        is_refused(&stream_of(&head, &trailer(length)), Refusal::BadFrame { at: 32_768 }, taken);
    }
}

impl Buffers {
    /// Each call with too little room is refused with 2, and leaves all but the result as it was.
    fn refuse(&self, lengths: [usize; 3]) {
        let calls: [fn(&mut Buffers, [usize; 3]) -> u8; 3] = [
            |buffers, lengths| buffers.feed(lengths, STREAM),
            |buffers, lengths| raw::answer(&mut buffers.lend(lengths), 1),
            |buffers, lengths| raw::end(&mut buffers.lend(lengths)),
        ];
        for call in calls {
            let mut tried = self.clone();
            assert_eq!(call(&mut tried, lengths), raw::REFUSED, "{lengths:?}");
            assert_eq!(tried.outcome(), Outcome { word: u64::from(raw::REFUSED), taken: 0, first: 2, second: 0 });
            tried.result.clone_from(&self.result);
            assert!(tried == *self, "something changed with {lengths:?}");
        }
    }
}

#[test]
fn buffers_that_are_too_short() {
    assert_eq!(ENOUGH, [32_768, 65_536, 32_768]);
    let (mut buffers, head) = (Buffers::fresh(), head_of(32_768));
    let check = |buffers: &Buffers| {
        for short in TOO_SHORT {
            buffers.refuse([short, ENOUGH[1], ENOUGH[2]]);
            buffers.refuse([ENOUGH[0], ENOUGH[1], short]);
        }
        buffers.refuse([ENOUGH[0], 65_535, ENOUGH[2]]);
        buffers.refuse([8192, ENOUGH[1], 8192]);
    };
    check(&buffers);
    assert_eq!(buffers.feed(ENOUGH, &head[..20_000]), raw::MORE);
    check(&buffers);
    assert_eq!(buffers.feed(ENOUGH, &head[20_000..]), raw::QUESTION);
    check(&buffers);
    assert_eq!(raw::answer(&mut buffers.lend(ENOUGH), 1), raw::HEAD);
    check(&buffers);
    assert_eq!(raw::end(&mut buffers.lend(ENOUGH)), raw::REFUSED);
    check(&buffers);
}

#[test]
fn no_values_from_short_buffers() {
    let mut buffers = Buffers::fresh();
    assert_eq!(buffers.feed(ENOUGH, &head_of(32_768)), raw::QUESTION);
    assert_eq!(raw::answer(&mut buffers.lend(ENOUGH), 1), raw::HEAD);
    let handed = |length: usize| {
        let (state, head, mut value) = (&buffers.state, &buffers.head[..length], [0; 100]);
        (raw::value(state, head, b"content-type", &mut value), raw::value_count(state, head, b"content-type"))
    };
    assert!(TOO_SHORT.iter().all(|&short| handed(short) == (0, 0)));
    assert_eq!(handed(32_768), ("text/plain".len(), 1));
}
