//! What the tests of signed streams share: the signer, a stream written into memory, and its reading by the second reader, with every
//! signature verified.
#![allow(dead_code)]

use oui_sign::show::{sum_of, Stream};
use second::event::Event;
use second::reader::Reader;
use second::ring::Record;
use sodium::Signer;

pub const URI: &str = "https://example.com/show";

pub fn signer() -> Signer {
    Signer::from_seed(&[9; 32])
}

/// The bytes of a stream of this body.
pub fn written(mut stream: Stream, body: &[u8]) -> Vec<u8> {
    if stream.wants_sum() {
        stream.set_sum(sum_of(body).expect("a body in memory")).expect("a head with room");
    }
    let mut out = Vec::new();
    stream.write(body, &mut out).expect("a stream in memory");
    out
}

/// What a stream gave: the offset of its first block, all blocks, and the last event.
pub struct Read {
    pub first: Option<u64>,
    pub body: Vec<u8>,
    pub last: Event,
}

pub fn read(stream: &[u8]) -> Read {
    let ring = vec![Record { key: signer().public, first: 0, last: u64::MAX }];
    let mut reader = Reader::new(ring, URI.as_bytes().to_vec());
    let (mut first, mut body, mut rest) = (None, Vec::new(), stream);
    loop {
        let (taken, event) = reader.feed(&rest[..rest.len().min(1000)]).expect("in turn");
        rest = &rest[taken..];
        let event = match event {
            Some(Event::Question(question)) => {
                let good = sodium::verify(&signer().public, &question.message, &question.signature);
                reader.answer(good).expect("a question is open")
            }
            Some(event) => event,
            None => continue,
        };
        if let Event::Block { offset, .. } = event {
            first = first.or(Some(offset));
        }
        body.extend_from_slice(reader.block());
        if event.is_final() {
            assert!(rest.is_empty(), "{} bytes are left after {event}", rest.len());
            return Read { first, body, last: event };
        }
    }
}
