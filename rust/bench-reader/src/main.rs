//! Times the proved library beside the second reader: the same stream in the same pieces, every signature verified by the same
//! routine, and the same bytes out. The stream has the fields about its end, so both hash each block for its signature (SHA-512) and the
//! whole body for its end (SHA-256), and both must end in *complete*. Both are built for release; turns alternate, and the medians and their
//! ratio are printed.

#![forbid(unsafe_code)]

use oui_sign::show::Show;
use ouinet_reader::{Event, Ring};
use second::event::Event as OtherEvent;
use second::files::parse_ring;
use sodium::Signer;
use std::time::Instant;
use streams::example::TEST_SEED;
use streams::options::Options;
use streams::plan::{ring_text, RingRecord};

const URI: &str = "https://example.com/long";
const MIB: u64 = 1 << 20;
/// Body bytes, piece length, turns.
const RUNS: [(u64, usize, usize); 4] = [(64 * MIB, 65_536, 7), (64 * MIB, 1400, 5), (16 * MIB, 16, 3), (4 * MIB, 1, 3)];

/// What a reading leaves: how many bytes came out, and a sum over them that depends on their order.
#[derive(Default, PartialEq, Eq, Debug, Clone, Copy)]
struct Out {
    bytes: u64,
    sum: u64,
}

impl Out {
    fn take(&mut self, block: &[u8]) {
        self.bytes += block.len() as u64;
        for eight in block.chunks(8) {
            let number = eight.iter().fold(0, |number, &byte| number << 8 | u64::from(byte));
            self.sum = self.sum.rotate_left(5) ^ number;
        }
    }

    /// The end was checked, and the body has so many bytes.
    fn whole(self, total: u64) -> Self {
        assert_eq!(self.bytes, total);
        self
    }
}

/// A body in which no two blocks are alike.
fn body(length: u64) -> Vec<u8> {
    (0..length / 8).flat_map(|count| count.wrapping_mul(0x9e37_79b9_7f4a_7c15).to_le_bytes()).collect()
}

/// The ring's text, and the stream of a body: blocks as long as can be, and the three fields about the end in the trailer.
fn material(body: &[u8]) -> (Vec<u8>, Vec<u8>) {
    let signer = Signer::from_seed(&TEST_SEED);
    let ring = ring_text(&[RingRecord { key: signer.public, first: 0, last: u64::MAX }]);
    let words = ["--uri", URI, "--id", "long", "--ts", "1700000000", "--ends", "trailer"].map(str::to_string);
    let show = Options::parse(&words, "").and_then(|mut options| Show::from(&mut options)).expect("good words");
    let mut stream = Vec::new();
    show.stream(signer).expect("a good head").write(body, &mut stream).expect("a stream in memory");
    (ring, stream)
}

/// Through the proved library, with the calls made as a program makes them that gets pieces from a network.
fn ours(stream: &[u8], ring: &[u8], uri: &[u8], piece: usize) -> Out {
    let mut reader = ouinet_reader::Reader::new(Ring::parse(ring).expect("a good ring"), uri);
    let mut out = Out::default();
    for piece in stream.chunks(piece) {
        let mut rest = piece;
        while !rest.is_empty() {
            let fed = reader.feed(rest).expect("in turn");
            rest = &rest[fed.taken..];
            let good = match fed.event {
                Some(Event::Question(question)) => sodium::verify(question.key, question.message, question.signature),
                None => break,
                Some(other) => panic!("{other:?}"),
            };
            match reader.answer(good).expect("a question is open") {
                Event::HeadAccepted { .. } => (),
                Event::Block { bytes, .. } => out.take(bytes),
                Event::Complete { total } => return out.whole(total),
                other => panic!("{other:?}"),
            }
        }
    }
    panic!("the stream has no end");
}

/// The same through the second reader.
fn theirs(stream: &[u8], ring: &[u8], uri: &[u8], piece: usize) -> Out {
    let ring = parse_ring(ring).expect("a good ring");
    let mut reader = second::reader::Reader::new(ring.clone(), uri.to_vec());
    let mut out = Out::default();
    for piece in stream.chunks(piece) {
        let mut rest = piece;
        while !rest.is_empty() {
            let (taken, event) = reader.feed(rest).expect("in turn");
            rest = &rest[taken..];
            let good = match event {
                Some(OtherEvent::Question(question)) => {
                    sodium::verify(&ring[question.record].key, &question.message, &question.signature)
                }
                None => break,
                Some(other) => panic!("{other:?}"),
            };
            match reader.answer(good).expect("a question is open") {
                OtherEvent::HeadAccepted { .. } => (),
                OtherEvent::Block { .. } => out.take(reader.block()),
                OtherEvent::Complete { total } => return out.whole(total),
                other => panic!("{other:?}"),
            }
        }
    }
    panic!("the stream has no end");
}

fn timed(read: impl FnOnce() -> Out) -> (f64, Out) {
    let start = Instant::now();
    let out = read();
    (start.elapsed().as_secs_f64(), out)
}

fn median(mut times: Vec<f64>) -> f64 {
    times.sort_by(f64::total_cmp);
    times[times.len() / 2]
}

fn main() {
    println!("body in MiB, pieces of, ours in ms, the second reader's in ms, ratio");
    for (length, piece, turns) in RUNS {
        let (ring, stream) = material(&body(length));
        let (mut our_times, mut their_times) = (Vec::new(), Vec::new());
        for _ in 0..turns {
            let (our_time, our_out) = timed(|| ours(&stream, &ring, URI.as_bytes(), piece));
            let (their_time, their_out) = timed(|| theirs(&stream, &ring, URI.as_bytes(), piece));
            assert_eq!(our_out, their_out);
            assert_eq!(our_out.bytes, length);
            our_times.push(our_time);
            their_times.push(their_time);
        }
        let (our, their) = (median(our_times) * 1000.0, median(their_times) * 1000.0);
        println!("{}, {piece}, {our:.0}, {their:.0}, {:.2}", length / MIB, our / their);
    }
}
