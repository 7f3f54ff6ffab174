//! How a stream is cut into pieces: the lines of a cuts file.

use crate::rng::Rng;

/// The longest piece and the most lines that a cuts file may have.
const MOST_PIECE: usize = 65_536;
const MOST_LINES: usize = 4096;

/// The text of a cuts file.
pub fn text(cuts: &[usize]) -> Vec<u8> {
    cuts.iter().flat_map(|cut| format!("{cut}\n").into_bytes()).collect()
}

/// Cuts right after every CR, with an empty piece at some of them. A list that would be too long
/// starts again from its first line.
pub fn at_every_cr(stream: &[u8], rng: &mut Rng) -> Vec<usize> {
    let mut cuts = Vec::new();
    let mut length = 0;
    for &byte in stream {
        length += 1;
        if byte == b'\r' || length == MOST_PIECE {
            cuts.push(length);
            length = 0;
            if rng.one_in(5) {
                cuts.push(0);
            }
        }
    }
    cuts.push(length.max(1));
    cuts.truncate(MOST_LINES);
    cuts
}

/// Pieces of any lengths up to a bound, with empty ones between.
pub fn random(rng: &mut Rng) -> Vec<usize> {
    let bound = *rng.pick(&[2, 3, 10, 100, 1000, MOST_PIECE]);
    let count = rng.between(1, 40);
    let mut cuts: Vec<usize> = (0..count).map(|_| rng.between(0, bound)).collect();
    cuts.push(rng.between(1, bound));
    cuts
}

/// One of the ways to cut, or none.
pub fn any(stream: &[u8], rng: &mut Rng) -> Option<Vec<u8>> {
    // Single bytes are left out for long streams, where each costs a call and tells nothing new. A head or trailer of any length is short.
    let short = stream.len() < 40_000;
    match rng.below(5) {
        0 => None,
        1 if short => Some(text(&[1])),
        2 => Some(text(&at_every_cr(stream, rng))),
        3 if short => Some(text(&[0, 1, 0, 0, 2])),
        _ => Some(text(&random(rng))),
    }
}
