//! A few thousand lists of calls of a fixed seed, so that the gate gives the same answer each time.

use fuzz_calls::material::Pool;
use fuzz_calls::tally::Tally;
use ouinet_reader::raw;

const SEED: u64 = 1;

fn run(from: u64, count: u64) -> Tally {
    println!("seed {SEED}, lists {from} to {}", from + count - 1);
    let pool = Pool::new();
    let mut tally = Tally::default();
    for number in from..from + count {
        if let Err(what) = fuzz_calls::check(&pool, SEED, number, &mut tally) {
            panic!("{what}");
        }
    }
    println!("{tally}");
    tally
}

#[test]
fn some_lists() {
    let tally = run(0, 2000);
    assert!(tally.words.iter().all(|&count| count > 0), "a word never came");
    assert!(tally.places >= 200, "only {} refusals had a place", tally.places);
    assert!(tally.repeated >= 100, "only {} counts were above 1", tally.repeated);
    assert!(tally.longer >= 60, "only {} accepted heads were longer than before", tally.longer);
    assert!(tally.refusals[16] >= 100, "only {} heads were another show's", tally.refusals[16]);
    assert!(tally.ends >= 60, "only {} questions were about the end of a show", tally.ends);
    assert!(tally.words[usize::from(raw::COMPLETE)] >= 50, "only {} shows were complete", tally.words[6]);
    let heads = tally.words[usize::from(raw::HEAD)];
    assert!(tally.parts >= 150 && tally.parts * 8 >= heads, "only {} of {heads} heads were of parts", tally.parts);
    assert!(tally.closed_parts >= 50, "only {} part answers were closed", tally.closed_parts);
    assert!(tally.late_uris >= 1000, "only {} feeds after the head had another URI", tally.late_uris);
}

#[test]
fn some_more_lists() {
    let tally = run(2000, 2000);
    for number in [1, 2, 3, 4, 5, 6, 7, 8, 10, 11, 12, 13, 14, 15, 16] {
        assert!(tally.refusals[number] > 0, "refusal {number} never came");
    }
}
