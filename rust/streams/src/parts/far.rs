//! Parts that lie far into large shows, of which no more is known here than the hash of the block before.

use super::shown;
use crate::ends;
use crate::limits::BODY;
use crate::part_answer::PartAnswer;
use crate::plan::{blocks_of, Plan};
use crate::rng::Rng;
use crate::table::Table;

/// The plan's blocks, somewhere in a show that is as large as can be or smaller. It ends there, or goes on.
pub(super) fn any(plan: Plan, rng: &mut Rng) -> PartAnswer {
    let (size, length) = (plan.block_size as u64, plan.blocks.iter().map(|block| block.len() as u64).sum::<u64>());
    let most = (BODY - length) / size;
    let number = match rng.below(3) {
        0 => most,
        1 => most.min(10u64.pow(rng.below(10) as u32)),
        _ => 1 + rng.next_u64() % most,
    };
    let (offset, hash) = (number * size, rng.bytes(64));
    let behind = offset + length;
    let total = if behind.is_multiple_of(size) && rng.one_in(2) { BODY } else { behind };
    PartAnswer::far(plan, offset, total, hash)
}

impl Table<'_> {
    /// A part of so many bytes at this offset.
    fn far_part(&mut self, size: usize, offset: u64, length: usize, total: u64) {
        let mut plan = ends::bare();
        plan.block_size = size;
        plan.blocks = blocks_of(&self.rng.bytes(length), size);
        let hash = self.rng.bytes(64);
        let answer = PartAnswer::far(plan, offset, total, hash);
        self.closed(format!("{} of {total}", shown(&answer)), &answer);
    }

    /// Offsets of all lengths, and the last blocks of the largest show.
    pub(super) fn far_parts(&mut self) {
        for digits in 0..10 {
            let power = 10u64.pow(digits);
            self.far_part(1, power, 1, power + 1);
            self.far_part(1, power, 2, BODY);
            if power > 1 {
                self.far_part(1, power - 1, 2, power + 1);
            }
        }
        for (size, length) in [(1, 1), (1, 3), (2, 2), (2, 4), (4096, 5000), (65_536, 65_536), (65_536, 131_072)] {
            let whole = (length as u64).next_multiple_of(size as u64);
            self.far_part(size, BODY - whole, length, BODY - whole + length as u64);
            self.far_part(size, BODY - 2 * whole, whole as usize, BODY);
        }
        // Sizes that do not fit the limit: the largest show has a short last block
        for size in [3, 5, 7, 65_535] {
            let last = BODY % size as u64;
            self.far_part(size, BODY - last, last as usize, BODY);
            self.far_part(size, BODY - last - size as u64, size + last as usize, BODY);
        }
    }

    /// Nobody has signed how many bytes the show has, so a part that ends with a full block may say anything that fits.
    pub(super) fn said_totals(&mut self) {
        for total in [10, 11, 12, 13, 15, 1_000_000, BODY - 1, BODY] {
            let mut answer = super::part_of_example(1..2);
            answer.set_range(format!("bytes 5-9/{total}"));
            self.closed(format!("bytes 5-9/{total} of a show of 12"), &answer);
        }
        for total in [8, 9, BODY + 1, BODY + 6, 999_999_999_999] {
            let mut answer = super::part_of_example(1..2);
            answer.set_range(format!("bytes 5-9/{total}"));
            self.part_refused(4, format!("bytes 5-9/{total} of a show of 12"), &answer);
        }
    }
}
