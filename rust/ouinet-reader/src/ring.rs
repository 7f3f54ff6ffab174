//! The key ring: whose signatures are believed, and when.

use crate::base64;
use crate::raw::{RECORD_SIZE, RING_LIMIT};
use std::fmt;

/// The most records that a ring may have.
pub const MOST_RECORDS: usize = RING_LIMIT;

/// A key and the span of seconds in which it is trusted, both ends included.
#[derive(Debug, Clone, Copy, PartialEq, Eq)]
pub struct Record {
    /// The Ed25519 public key.
    pub key: [u8; 32],
    /// The first second trusted.
    pub first: u64,
    /// The last second trusted.
    pub last: u64,
}

/// A key ring of 0 to 16 records. The first record that has a stream's key, with the stream's time in its span, is used.
#[derive(Debug, Clone, PartialEq, Eq)]
pub struct Ring {
    records: Vec<Record>,
    /// The records as the library reads them.
    bytes: Vec<u8>,
}

impl Ring {
    /// A ring that trusts nobody.
    pub fn empty() -> Self {
        Ring { records: Vec::new(), bytes: Vec::new() }
    }

    /// A ring of these records, or nothing if there are more than 16.
    pub fn new(records: &[Record]) -> Option<Self> {
        if records.len() > MOST_RECORDS {
            return None;
        }
        let mut bytes = Vec::with_capacity(records.len() * RECORD_SIZE);
        for record in records {
            bytes.extend(record.key);
            bytes.extend(record.first.to_le_bytes());
            bytes.extend(record.last.to_le_bytes());
        }
        Some(Ring { records: records.to_vec(), bytes })
    }

    /// Reads a ring's file: a record a line, the key in base64, the first and the last second, one space between.
    pub fn parse(text: &[u8]) -> Result<Self, RingFault> {
        let mut records = Vec::new();
        let lines = text.strip_suffix(b"\n").unwrap_or(text);
        for (index, line) in lines.split(|&byte| byte == b'\n').enumerate() {
            if text.is_empty() {
                break;
            }
            let at_line = |what: &str| RingFault { line: index + 1, what: what.to_string() };
            if records.len() == MOST_RECORDS {
                return Err(at_line("a ring has at most 16 records"));
            }
            records.push(parse_record(line).map_err(at_line)?);
        }
        Ok(Ring::new(&records).unwrap_or_else(Ring::empty))
    }

    /// The records.
    pub fn records(&self) -> &[Record] {
        &self.records
    }

    /// The records as the C interface takes them.
    pub fn as_bytes(&self) -> &[u8] {
        &self.bytes
    }
}

fn parse_record(line: &[u8]) -> Result<Record, &'static str> {
    let words: Vec<&[u8]> = line.split(|&byte| byte == b' ').collect();
    let [key, first, last] = words[..] else {
        return Err("a record is a key in base64, its first and its last second, with one space between");
    };
    Ok(Record {
        key: base64::key(key).ok_or("the key is not 44 characters of base64 for 32 bytes")?,
        first: second(first).ok_or("the first second is not a decimal number below 2^64")?,
        last: second(last).ok_or("the last second is not a decimal number below 2^64")?,
    })
}

/// A number in decimal digits, without a leading zero unless it is `0`.
fn second(digits: &[u8]) -> Option<u64> {
    let all_digits = digits.iter().all(u8::is_ascii_digit);
    if !all_digits || (digits.len() > 1 && digits[0] == b'0') {
        return None;
    }
    std::str::from_utf8(digits).ok()?.parse().ok()
}

/// What is wrong with a ring's file.
#[derive(Debug, Clone, PartialEq, Eq)]
pub struct RingFault {
    /// The line, counted from 1.
    pub line: usize,
    /// What is wrong with it, in words.
    pub what: String,
}

impl fmt::Display for RingFault {
    fn fmt(&self, out: &mut fmt::Formatter) -> fmt::Result {
        write!(out, "line {}: {}", self.line, self.what)
    }
}

impl std::error::Error for RingFault {}

#[cfg(test)]
mod tests {
    use super::*;

    fn zero_key() -> String {
        format!("{}=", "A".repeat(43))
    }

    #[test]
    fn good_files() {
        assert_eq!(Ring::parse(b""), Ok(Ring::empty()));
        let text = format!("{} 0 18446744073709551615\n{} 7 5", zero_key(), zero_key());
        let record = |first, last| Record { key: [0; 32], first, last };
        let ring = Ring::parse(text.as_bytes()).expect("a good ring");
        assert_eq!(ring.records(), [record(0, u64::MAX), record(7, 5)]);
        assert_eq!(ring.as_bytes().len(), 2 * RECORD_SIZE);
        assert_eq!(ring.as_bytes()[80..96], [7, 0, 0, 0, 0, 0, 0, 0, 5, 0, 0, 0, 0, 0, 0, 0]);
        let sixteen = format!("{} 1 2\n", zero_key()).repeat(16);
        assert_eq!(Ring::parse(sixteen.as_bytes()).map(|ring| ring.records().len()), Ok(16));
    }

    #[test]
    fn faults_name_their_line() {
        let good = format!("{} 1 2\n", zero_key());
        for bad in [
            "\n".to_string(),
            "key\n".to_string(),
            format!("{} 1\n", zero_key()),
            format!("{}  1 2\n", zero_key()),
            format!("{} 1 2 \n", zero_key()),
            format!("{} 01 2\n", zero_key()),
            format!("{} +1 2\n", zero_key()),
            format!("{} 1 \n", zero_key()),
            format!("{} 1 18446744073709551616\n", zero_key()),
            format!("{} 1 2\r\n", zero_key()),
        ] {
            let text = format!("{good}{bad}{good}");
            assert_eq!(Ring::parse(text.as_bytes()).map_err(|fault| fault.line), Err(2), "{bad:?}");
        }
        assert_eq!(Ring::parse(good.repeat(17).as_bytes()).map_err(|fault| fault.line), Err(17));
        assert_eq!(Ring::new(&[Record { key: [0; 32], first: 0, last: 0 }; 17]), None);
    }
}
