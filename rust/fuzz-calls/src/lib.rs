//! Random lists of calls through the proved library and through the second reader's reading of call lists, compared after
//! every call: the word with all it carries, the count taken, every byte of every lent buffer and of the marks around it,
//! the handed-out parts, how many lines a field has, and which bytes of a show a part answer has. A list depends only on the seed and its own number.
//!
//! * `material`: the streams that are fed, honest and broken, their rings, and the URIs asked for;
//! * `buffers`: lent buffers with marks around them, and what must lie in them;
//! * `due`: what a call must say;
//! * `list`: one list of calls, drawn and compared as it goes;
//! * `state`: what a state has about a part answer;
//! * `forged`: states that no call wrote: safety, and refusals 1 and 2, hold for them too;
//! * `tally`: what was seen, to show that the lists reach it.

#![forbid(unsafe_code)]

pub mod buffers;
pub mod due;
pub mod forged;
pub mod list;
pub mod material;
pub mod state;
pub mod tally;

use material::Pool;
use streams::rng::Rng;
use tally::Tally;

/// Runs one list of a seed. An error says what differed, and after how many calls.
pub fn check(pool: &Pool, seed: u64, number: u64, tally: &mut Tally) -> Result<(), String> {
    let mut rng = Rng::for_case(seed, number);
    let material = pool.draw(&mut rng);
    let mut list = list::List::new(&material, &mut rng);
    list.run(tally).map_err(|what| format!("list {number} of seed {seed}, {}: {what}", material.label))
}
