//! The key ring: a table of 0 to 16 records, each a key and the span of seconds it is trusted in
//! (paper 01, "The head", below its list).

/// The most records a ring may have.
pub const MOST_RECORDS: usize = 16;

#[derive(Debug, Clone, PartialEq, Eq)]
pub struct Record {
    pub key: [u8; 32],
    pub first: u64,
    pub last: u64,
}

impl Record {
    /// Both ends of the span belong to it.
    fn trusts(&self, key: &[u8; 32], second: u64) -> bool {
        self.key == *key && self.first <= second && second <= self.last
    }
}

/// The number, from 0, of the first record that has the key and whose span holds the second.
pub fn look_up(ring: &[Record], key: &[u8; 32], second: u64) -> Option<usize> {
    ring.iter().position(|record| record.trusts(key, second))
}

#[cfg(test)]
mod tests {
    use super::*;

    #[test]
    fn the_first_that_fits() {
        let record = |key: u8, first, last| Record { key: [key; 32], first, last };
        let ring = [record(1, 5, 9), record(2, 0, 100), record(1, 9, 9), record(1, 20, 10)];
        assert_eq!(look_up(&ring, &[1; 32], 4), None);
        assert_eq!(look_up(&ring, &[1; 32], 5), Some(0));
        assert_eq!(look_up(&ring, &[1; 32], 9), Some(0));
        assert_eq!(look_up(&ring, &[1; 32], 10), None);
        assert_eq!(look_up(&ring, &[1; 32], 15), None);
        assert_eq!(look_up(&ring, &[2; 32], 100), Some(1));
        assert_eq!(look_up(&ring, &[3; 32], 50), None);
        assert_eq!(look_up(&[], &[1; 32], 5), None);
    }
}
