//! What a state has about a part answer (request #104), and where. The rest of a state is the library's own.

use crate::due::same;
use second::part::Part;

/// A number: 1 for a part answer, else 0. Any other is read as 0.
pub const KIND: usize = 472;
/// Numbers: the places of the part's first byte and of its last, and the length of the show. For a whole answer they are 0.
pub const FIRST: usize = 480;
pub const LAST: usize = 488;
pub const TOTAL: usize = 496;

/// The number at a place, lowest byte first.
pub fn number(state: &[u8], place: usize) -> u64 {
    state[place..place + 8].iter().rev().fold(0, |number, &byte| number << 8 | u64::from(byte))
}

/// Puts a number there.
pub fn put(state: &mut [u8], place: usize, number: u64) {
    state[place..place + 8].copy_from_slice(&number.to_le_bytes());
}

/// Whether a state whose head is accepted says this of its part.
pub fn check(state: &[u8], part: Option<Part>) -> Result<(), String> {
    let is = [KIND, FIRST, LAST, TOTAL].map(|place| number(state, place));
    let due = part.map_or([0; 4], |part| [1, part.first, part.last, part.total]);
    same("what the state has about a part", &is, &due)
}
