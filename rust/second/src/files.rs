//! The program's files: key ring, answers and cuts. A fault names the line and what is wrong.

use crate::base64;
use crate::ring::{Record, MOST_RECORDS};
use crate::text;
use std::io::{self, Read};

/// The longest piece.
pub const MOST_PIECE: usize = 65_536;
/// The most lines that a file of cuts may have.
pub const MOST_CUTS: usize = 4096;
/// No good ring or file of cuts comes near to so many bytes.
pub const MOST_TEXT: u64 = 65_536;

/// What is wrong with a file, and on which line (from 1).
#[derive(Debug, Clone, PartialEq, Eq)]
pub struct Fault {
    pub line: usize,
    pub what: String,
}

fn fault(line: usize, what: impl Into<String>) -> Fault {
    Fault { line, what: what.into() }
}

/// The lines of a text with their numbers. The last line may lack its line feed.
fn numbered_lines(text: &[u8]) -> impl Iterator<Item = (usize, &[u8])> {
    let body = text.strip_suffix(b"\n").unwrap_or(text);
    let count = if text.is_empty() { 0 } else { usize::MAX };
    body.split(|&b| b == b'\n').take(count).enumerate().map(|(index, line)| (index + 1, line))
}

/// A key ring: a record a line, the key in base64, the first and the last second trusted, with one
/// space between.
pub fn parse_ring(text: &[u8]) -> Result<Vec<Record>, Fault> {
    let mut ring = Vec::new();
    for (number, line) in numbered_lines(text) {
        if ring.len() == MOST_RECORDS {
            return Err(fault(number, format!("more than {MOST_RECORDS} records")));
        }
        ring.push(parse_record(number, line)?);
    }
    Ok(ring)
}

fn parse_record(number: usize, line: &[u8]) -> Result<Record, Fault> {
    let words: Vec<&[u8]> = line.split(|&b| b == b' ').collect();
    let [key, first, last] = words[..] else {
        return Err(fault(number, "a record is a key, a first and a last second with one space between"));
    };
    let key =
        base64::decode_key(key).ok_or_else(|| fault(number, "the key is not 44 characters of base64 for 32 bytes"))?;
    let second = |which: &str, digits: &[u8]| {
        text::decimal(digits, 20)
            .ok_or_else(|| fault(number, format!("the {which} second is not a decimal number below 2^64")))
    };
    Ok(Record { key, first: second("first", first)?, last: second("last", last)? })
}

/// Cuts: a piece length a line. At least one must be above 0, else no byte would ever be fed.
pub fn parse_cuts(text: &[u8]) -> Result<Vec<usize>, Fault> {
    let mut cuts = Vec::new();
    for (number, line) in numbered_lines(text) {
        if cuts.len() == MOST_CUTS {
            return Err(fault(number, format!("more than {MOST_CUTS} lines")));
        }
        let cut = text::decimal(line, 5)
            .filter(|&cut| cut <= MOST_PIECE as u64)
            .ok_or_else(|| fault(number, format!("a piece length is a decimal number from 0 to {MOST_PIECE}")))?;
        cuts.push(cut as usize);
    }
    if cuts.iter().all(|&cut| cut == 0) {
        return Err(fault(cuts.len().max(1), "no piece length is above 0"));
    }
    Ok(cuts)
}

/// Why an answer could not be had.
#[derive(Debug)]
pub enum AnswerFault {
    Text(Fault),
    Read(io::Error),
}

/// The letters y and n in order, read as they are needed; white space is skipped.
pub struct Answers<R: Read> {
    bytes: io::Bytes<io::BufReader<R>>,
    line: usize,
}

impl<R: Read> Answers<R> {
    pub fn new(source: R) -> Self {
        Answers { bytes: io::BufReader::new(source).bytes(), line: 1 }
    }

    /// The next answer, or nothing when there are no more.
    pub fn next_answer(&mut self) -> Result<Option<bool>, AnswerFault> {
        for byte in self.bytes.by_ref() {
            match byte.map_err(AnswerFault::Read)? {
                b'y' => return Ok(Some(true)),
                b'n' => return Ok(Some(false)),
                b'\n' => self.line += 1,
                other if other.is_ascii_whitespace() => (),
                other => {
                    let what = format!("an answer is y or n, not {:?}", other.escape_ascii().to_string());
                    return Err(AnswerFault::Text(fault(self.line, what)));
                }
            }
        }
        Ok(None)
    }

    /// Reads to the end to see that every letter is good.
    pub fn check_all(mut self) -> Result<(), AnswerFault> {
        while self.next_answer()?.is_some() {}
        Ok(())
    }
}

#[cfg(test)]
mod tests {
    use super::*;

    fn key() -> String {
        format!("{}=", "A".repeat(43))
    }

    #[test]
    fn rings() {
        let good = format!("{} 0 18446744073709551615\n{} 5 5", key(), key());
        assert_eq!(
            parse_ring(good.as_bytes()),
            Ok(vec![Record { key: [0; 32], first: 0, last: u64::MAX }, Record { key: [0; 32], first: 5, last: 5 }])
        );
        assert_eq!(parse_ring(b""), Ok(vec![]));
        let sixteen = format!("{} 1 2\n", key()).repeat(16);
        assert_eq!(parse_ring(sixteen.as_bytes()).map(|ring| ring.len()), Ok(16));
        let seventeen = format!("{} 1 2\n", key()).repeat(17);
        assert_eq!(parse_ring(seventeen.as_bytes()).map_err(|fault| fault.line), Err(17));
        let wrong = [
            "\n".to_string(),
            format!("{}  1 2\n", key()),
            format!("{} 1\n", key()),
            format!("{} 1 2 \n", key()),
            format!("{} 01 2\n", key()),
            format!("{} 1 18446744073709551616\n", key()),
            format!("{} 1 2\r\n", key()),
            format!("{} 1 2\n", "A".repeat(44)),
            format!("{} -1 2\n", key()),
        ];
        for text in wrong {
            assert_eq!(parse_ring(text.as_bytes()).map_err(|fault| fault.line), Err(1), "{text:?}");
        }
    }

    #[test]
    fn cuts() {
        assert_eq!(parse_cuts(b"0\n1\n65536"), Ok(vec![0, 1, 65536]));
        assert_eq!(parse_cuts(&b"1\n".repeat(4096)).map(|cuts| cuts.len()), Ok(4096));
        let wrong: [(&[u8], usize); 9] = [
            (b"", 1),
            (b"0\n0\n", 2),
            (b"1\n65537\n", 2),
            (b"1\n\n2\n", 2),
            (b"-1\n", 1),
            (b"1\n 2\n", 2),
            (b"1 \n", 1),
            (b"x\n", 1),
            (b"01\n", 1),
        ];
        for (text, line) in wrong {
            assert_eq!(parse_cuts(text).map_err(|fault| fault.line), Err(line));
        }
        assert_eq!(parse_cuts(&b"1\n".repeat(4097)).map_err(|fault| fault.line), Err(4097));
    }

    #[test]
    fn answers() {
        let mut answers = Answers::new(&b" y\tn\r\n\ny?"[..]);
        assert!(matches!(answers.next_answer(), Ok(Some(true))));
        assert!(matches!(answers.next_answer(), Ok(Some(false))));
        assert!(matches!(answers.next_answer(), Ok(Some(true))));
        assert!(matches!(answers.next_answer(), Err(AnswerFault::Text(Fault { line: 3, .. }))));
        let mut none = Answers::new(&b" \n"[..]);
        assert!(matches!(none.next_answer(), Ok(None)));
    }
}
