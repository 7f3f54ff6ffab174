//! Which bytes of a show a part answer has.

use crate::raw;

/// The bytes that a part answer (status 206) has of its show, as its `Content-Range` gives them: `bytes first-last/total`.
///
/// The first one is where a block starts, and the last one is the show's or where a block ends. The field need not be signed. Where the blocks
/// lie is signed with each of them; that the show has `total` bytes is what the sender says.
#[derive(Debug, Clone, Copy, PartialEq, Eq, Hash)]
pub struct PartRange {
    /// The place of the first byte in the show, counted from 0.
    pub first: u64,
    /// The place of the last byte.
    pub last: u64,
    /// How many bytes the show has.
    pub total: u64,
}

impl PartRange {
    /// How many bytes the part has, one at least.
    pub fn length(&self) -> u64 {
        (self.last + 1).saturating_sub(self.first)
    }

    /// That of a state whose head is that of a part answer.
    pub(crate) fn of(state: &[u8; raw::STATE_SIZE]) -> Option<Self> {
        let number = |place| raw::number(state, place);
        (number(raw::STATE_PART) == 1).then(|| PartRange {
            first: number(raw::STATE_FIRST),
            last: number(raw::STATE_LAST),
            total: number(raw::STATE_TOTAL),
        })
    }
}
