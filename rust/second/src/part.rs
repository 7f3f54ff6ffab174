//! Part answers (request #104): an answer of status 206 has some of a show's bytes, and one `Content-Range` says which.

use crate::chunk::MOST_BODY;
use crate::scan::Scan;

/// The status of a part answer.
pub const STATUS: u16 = 206;
/// "digits as `ts`".
const MOST_DIGITS: usize = 12;

/// The bytes that a part answer has. There is always one at least.
#[derive(Debug, Clone, Copy, PartialEq, Eq)]
pub struct Part {
    /// The place of its first byte in the show.
    pub first: u64,
    /// The place of its last byte.
    pub last: u64,
    /// How many bytes the show has, as the answer says. Nobody has signed that.
    pub total: u64,
}

impl Part {
    /// Reads `bytes a-b/t` for a show in blocks of this size. Nothing if the text is another, or if it is no run of whole blocks
    /// within a show that can be.
    pub fn parse(value: &[u8], block_size: u32) -> Option<Self> {
        let mut rest = Scan(value);
        rest.expect(b"bytes ")?;
        let first = rest.decimal(MOST_DIGITS)?;
        rest.expect(b"-")?;
        let last = rest.decimal(MOST_DIGITS)?;
        rest.expect(b"/")?;
        let total = rest.decimal(MOST_DIGITS)?;
        rest.expect_end()?;
        Some(Part { first, last, total }).filter(|part| part.fits(u64::from(block_size)))
    }

    /// "a at most b, b below t, t within the body limit, a divisible by N, and b+1 equal to t or divisible by N".
    fn fits(&self, block_size: u64) -> bool {
        let behind = self.last + 1;
        self.first <= self.last
            && self.last < self.total
            && self.total <= MOST_BODY
            && self.first.is_multiple_of(block_size)
            && (behind == self.total || behind.is_multiple_of(block_size))
    }

    /// How many bytes it has.
    pub fn length(&self) -> u64 {
        self.last + 1 - self.first
    }

    /// Whether a block comes before it, whose hash has to be told.
    pub fn has_block_before(&self) -> bool {
        self.first > 0
    }
}

#[cfg(test)]
mod tests {
    use super::*;

    fn part(first: u64, last: u64, total: u64) -> Option<Part> {
        Some(Part { first, last, total })
    }

    #[test]
    fn ranges() {
        assert_eq!(Part::parse(b"bytes 5-11/12", 5), part(5, 11, 12));
        assert_eq!(Part::parse(b"bytes 0-0/1", 5), part(0, 0, 1));
        assert_eq!(Part::parse(b"bytes 4294967295-4294967295/4294967296", 1), part(4294967295, 4294967295, 4294967296));
        assert_eq!(Part::parse(b"bytes 5-11/12", 5).map(|part| part.length()), Some(7));
        for wrong in ["", "bytes 5-11/12 ", " bytes 5-11/12", "bytes 5-11", "bytes 5/12", "5-11/12", "bytes 5-11/12/13"]
        {
            assert_eq!(Part::parse(wrong.as_bytes(), 5), None, "{wrong:?}");
        }
    }
}
