//! The sections of a stream that are judged by their text.

use crate::raw;

/// The kinds of section that a refusal 3 or 6 is about.
#[derive(Debug, Clone, Copy, PartialEq, Eq, Hash)]
pub enum SectionKind {
    /// The head, at the stream's front.
    Head,
    /// A chunk line.
    ChunkLine,
    /// The CR LF after a chunk's data.
    DataEnd,
    /// The trailer, after the chunk line of size 0.
    Trailer,
}

/// A section of a stream, as far as it was taken.
#[derive(Debug, Clone, Copy, PartialEq, Eq, Hash)]
pub struct Section {
    /// What it is.
    pub kind: SectionKind,
    /// Where in the stream its first byte is.
    pub start: u64,
    /// How many bytes of it were taken.
    pub length: u64,
}

impl Section {
    /// The section under way in a state, with the byte that came next, after which so many bytes of the stream were taken.
    pub(crate) fn under_way(state: &[u8; raw::STATE_SIZE], taken: u64) -> Option<Self> {
        let kind = match raw::number(state, raw::STATE_PHASE) {
            raw::PHASE_HEAD => SectionKind::Head,
            raw::PHASE_FIRST_LINE | raw::PHASE_NEXT_LINE => SectionKind::ChunkLine,
            raw::PHASE_DATA_END => SectionKind::DataEnd,
            raw::PHASE_TRAILER => SectionKind::Trailer,
            _ => return None,
        };
        let length = raw::number(state, raw::STATE_COUNT).checked_add(1)?;
        Some(Section { kind, start: taken.checked_sub(length)?, length })
    }
}
