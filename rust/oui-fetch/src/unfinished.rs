//! What is recorded of a body that is not finished, as a text: which show it is, and how much of it is verified. The last lines, the marks, have one
//! length whatever they say, so that they can be written over one at a time (`record`).

use crate::chain::Hash;

/// The first line; another form of the text will have another.
const TITLE: &[u8] = b"oui-fetch unfinished 1";
/// What stands for a value that is not there.
const NONE: &str = "-";
/// As many digits as the length of the longest body has.
const DIGITS: usize = 10;
const HASH_DIGITS: usize = 128;
/// The names of the marks, all of one length.
const FLUSHED: &str = "flushed ";
const VERIFIED: &str = "verified";
/// The bytes of a mark's line.
pub const MARK_WIDTH: usize = VERIFIED.len() + 1 + DIGITS + 1 + HASH_DIGITS + 1;

/// A beginning of the body that ends with a block.
#[derive(Debug, Clone, Copy, PartialEq, Eq)]
pub struct Mark {
    pub length: u64,
    /// The hash of its last block, if it has one.
    pub hash: Option<Hash>,
}

impl Mark {
    pub const START: Mark = Mark { length: 0, hash: None };

    fn line(&self, name: &str) -> Vec<u8> {
        let hash = self.hash.map_or(NONE.repeat(HASH_DIGITS), |hash| hex(&hash));
        format!("{name} {:0DIGITS$} {hash}\n", self.length).into_bytes()
    }

    fn parse(text: &[u8]) -> Option<Self> {
        let (length, hash) = text.split_at_checked(DIGITS)?;
        let hash = match hash.strip_prefix(b" ")? {
            none if none == NONE.repeat(HASH_DIGITS).as_bytes() => None,
            digits => Some(from_hex(digits)?),
        };
        let length = std::str::from_utf8(length).ok()?.parse().ok()?;
        Some(Mark { length, hash }).filter(|mark| (mark.length == 0) == mark.hash.is_none())
    }
}

/// The marks of a body. A mark may be half written when the program is killed, so the last two are kept, and they are written by turns.
#[derive(Debug, Clone, Copy, PartialEq, Eq)]
pub struct Marks {
    /// What the disk was told to keep, so that it outlives a loss of power.
    pub flushed: Mark,
    /// What was verified and written, with the last block and before it.
    pub verified: [Mark; 2],
}

impl Marks {
    pub const START: Marks = Marks { flushed: Mark::START, verified: [Mark::START; 2] };

    /// All of them, the longest beginning first.
    pub fn longest_first(&self) -> [Mark; 3] {
        let [one, two] = self.verified;
        let mut all = [one, two, self.flushed];
        all.sort_by_key(|mark| std::cmp::Reverse(mark.length));
        all
    }

    /// Those of a body that has just this beginning.
    pub fn only(&self, mark: Mark) -> Self {
        let flushed = if self.flushed.length > mark.length { mark } else { self.flushed };
        Marks { flushed, verified: [mark; 2] }
    }
}

/// The line of the mark for what the disk keeps.
pub fn flushed_line(mark: Mark) -> Vec<u8> {
    mark.line(FLUSHED)
}

/// The line of a mark for what is verified.
pub fn verified_line(mark: Mark) -> Vec<u8> {
    mark.line(VERIFIED)
}

#[derive(Debug, Clone, PartialEq, Eq)]
pub struct Unfinished {
    pub uri: Vec<u8>,
    pub id: Vec<u8>,
    pub block_size: u64,
    pub key: [u8; 32],
    /// How many bytes the show has, where a part answer said so; nobody has signed that.
    pub total: Option<u64>,
    pub marks: Marks,
}

impl Unfinished {
    /// Where the next part is to begin, after a verified beginning: behind its last block, or with that block where no other can follow, so that
    /// there is a byte to ask for.
    pub fn next_first(&self, verified: u64) -> u64 {
        let is_at_end = !verified.is_multiple_of(self.block_size) || self.total == Some(verified);
        if is_at_end && verified > 0 {
            (verified - 1) / self.block_size * self.block_size
        } else {
            verified
        }
    }

    /// The text before the marks.
    pub fn front(&self) -> Vec<u8> {
        let total = self.total.map_or(NONE.to_string(), |total| total.to_string());
        let rest = format!("block-size {}\nkey {}\ntotal {total}\n", self.block_size, hex(&self.key));
        [TITLE, b"\nuri ", &self.uri, b"\nid ", &self.id, b"\n", rest.as_bytes()].concat()
    }

    pub fn text(&self) -> Vec<u8> {
        let Marks { flushed, verified: [one, two] } = self.marks;
        [self.front(), flushed_line(flushed), verified_line(one), verified_line(two)].concat()
    }

    /// What a text says; if it is none of ours, the number of the line that is wrong. One of the marks may be half written, and then says nothing,
    /// but not both for what is verified.
    pub fn parse(text: &[u8]) -> Result<Self, usize> {
        let mut lines = Lines { rest: text, number: 0 };
        if lines.next()? != TITLE {
            return Err(1);
        }
        let uri = lines.value("uri", |value| (!value.is_empty()).then(|| value.to_vec()))?;
        let id = lines.value("id", |value| (!value.is_empty()).then(|| value.to_vec()))?;
        let block_size = lines.value("block-size", |value| number(value).filter(|size| (1..=65_536).contains(size)))?;
        let key = lines.value("key", from_hex)?;
        let total = lines.value("total", |value| match value {
            none if none == NONE.as_bytes() => Some(None),
            value => number(value).map(Some),
        })?;
        let flushed = lines.mark(FLUSHED)?.unwrap_or(Mark::START);
        let verified = match [lines.mark(VERIFIED)?, lines.mark(VERIFIED)?] {
            [None, None] => return Err(lines.number),
            marks => marks.map(|mark| mark.unwrap_or(Mark::START)),
        };
        if !lines.rest.is_empty() {
            return Err(lines.number + 1);
        }
        Ok(Unfinished { uri, id, block_size, key, total, marks: Marks { flushed, verified } })
    }
}

/// The lines of a text, each with its line feed.
struct Lines<'a> {
    rest: &'a [u8],
    /// Of the line that was taken last, counted from 1.
    number: usize,
}

impl<'a> Lines<'a> {
    fn next(&mut self) -> Result<&'a [u8], usize> {
        self.number += 1;
        let end = self.rest.iter().position(|&byte| byte == b'\n').ok_or(self.number)?;
        let line = &self.rest[..end];
        self.rest = &self.rest[end + 1..];
        Ok(line)
    }

    /// The value of the next line, which must have this name.
    fn value<T>(&mut self, name: &str, read: impl FnOnce(&'a [u8]) -> Option<T>) -> Result<T, usize> {
        let value = self.next()?.strip_prefix(name.as_bytes()).and_then(|rest| rest.strip_prefix(b" "));
        value.and_then(read).ok_or(self.number)
    }

    /// The mark of the next line, which has the length of all marks; none if it is not well written, with this name.
    fn mark(&mut self, name: &str) -> Result<Option<Mark>, usize> {
        self.number += 1;
        let (line, rest) = self.rest.split_at_checked(MARK_WIDTH).ok_or(self.number)?;
        self.rest = rest;
        let value = line.strip_prefix(name.as_bytes()).and_then(|line| line.strip_prefix(b" "));
        Ok(value.and_then(|value| Mark::parse(value.strip_suffix(b"\n")?)))
    }
}

/// A number as it is written here: digits, and no zero before others.
fn number(value: &[u8]) -> Option<u64> {
    let text = std::str::from_utf8(value).ok()?;
    text.parse().ok().filter(|number: &u64| number.to_string() == text)
}

fn hex(bytes: &[u8]) -> String {
    bytes.iter().map(|byte| format!("{byte:02x}")).collect()
}

fn from_hex<const N: usize>(text: &[u8]) -> Option<[u8; N]> {
    let digit = |byte: u8| char::from(byte).to_digit(16).filter(|_| !byte.is_ascii_uppercase());
    let mut out = [0; N];
    if text.len() != 2 * N {
        return None;
    }
    for (byte, two) in out.iter_mut().zip(text.chunks(2)) {
        *byte = (digit(two[0])? << 4 | digit(two[1])?) as u8;
    }
    Some(out)
}

#[cfg(test)]
mod tests {
    use super::*;

    fn mark(length: u64) -> Mark {
        Mark { length, hash: (length > 0).then_some([length as u8; 64]) }
    }

    fn example() -> Unfinished {
        Unfinished {
            uri: b"https://example.com/s\xfcd \"x\"".to_vec(),
            id: b"me-1".to_vec(),
            block_size: 5,
            key: std::array::from_fn(|place| place as u8 * 7),
            total: Some(12),
            marks: Marks { flushed: mark(0), verified: [mark(5), mark(10)] },
        }
    }

    #[test]
    fn what_is_written_is_read() {
        for unfinished in [
            example(),
            Unfinished { total: None, marks: Marks::START, ..example() },
            Unfinished { marks: Marks { flushed: mark(10), verified: [mark(4_294_967_296), mark(9)] }, ..example() },
        ] {
            let text = unfinished.text();
            assert_eq!(text.len(), unfinished.front().len() + 3 * MARK_WIDTH);
            assert_eq!(Unfinished::parse(&text), Ok(unfinished));
        }
    }

    #[test]
    fn its_lines() {
        let text = String::from_utf8_lossy(&example().text()).into_owned();
        let start: Vec<&str> = text.lines().map(|line| &line[..line.len().min(24)]).collect();
        assert_eq!(
            start[2..],
            [
                "id me-1",
                "block-size 5",
                "key 00070e151c232a31383f",
                "total 12",
                "flushed  0000000000 ----",
                "verified 0000000005 0505",
                "verified 0000000010 0a0a",
            ]
        );
    }

    fn edited(from: &str, to: &str) -> Result<Unfinished, usize> {
        let text = example().text();
        let place = text.windows(from.len()).position(|window| window == from.as_bytes()).expect("it is there");
        Unfinished::parse(&[&text[..place], to.as_bytes(), &text[place + from.len()..]].concat())
    }

    #[test]
    fn texts_of_others() {
        for (from, to, line) in [
            ("unfinished 1", "unfinished 2", 1),
            ("uri https", "url https", 2),
            ("id me-1", "id ", 3),
            ("block-size 5", "block-size 0", 4),
            ("block-size 5", "block-size 65537", 4),
            ("block-size 5", "block-size 05", 4),
            ("key 00", "key 0", 5),
            ("key 00", "key 0g", 5),
            ("key 00070e", "key 00070E", 5),
            ("total 12", "total", 6),
            ("total 12", "total +12", 6),
            ("flushed ", "flushed", 9),
            ("flushed  0", "flushed  00", 9),
        ] {
            assert_eq!(edited(from, to), Err(line), "{from:?} to {to:?}");
        }
        for (text, line) in [(&b""[..], 1), (b"\0\0\0\0", 1), (b"\n\n", 1), (&[TITLE, b"\n"].concat(), 2)] {
            assert_eq!(Unfinished::parse(text), Err(line));
        }
        let text = example().text();
        for length in 0..text.len() {
            assert!(Unfinished::parse(&text[..length]).is_err(), "cut after {length}");
        }
        assert_eq!(Unfinished::parse(&[&text[..], b"x"].concat()), Err(10));
    }

    #[test]
    fn marks_that_are_half_written() {
        let with = |verified| Ok(Unfinished { marks: Marks { flushed: mark(0), verified }, ..example() });
        for (from, to) in [
            ("verified 0000000010 0a", "verified 000000001\0 0a"),
            ("verified 0000000010 0a", "verified 0000000010 0A"),
            ("verified 0000000010 0a", "verified 0000000010-0a"),
            ("verified 0000000010 0a", "verified 0000000000 0a"),
            ("verified 0000000010 0a", "Verified 0000000010 0a"),
        ] {
            assert_eq!(edited(from, to), with([mark(5), mark(0)]), "{to:?}");
        }
        assert_eq!(edited("verified 0000000005", "verified 00\n000\n005"), with([mark(0), mark(10)]));
        let text = String::from_utf8_lossy(&example().text()).replace("verified", "Verified");
        assert_eq!(Unfinished::parse(text.as_bytes()), Err(9), "not both");
    }

    #[test]
    fn the_longest_first() {
        let lengths = |marks: Marks| marks.longest_first().map(|mark| mark.length);
        assert_eq!(lengths(example().marks), [10, 5, 0]);
        let marks = Marks { flushed: mark(7), verified: [mark(9), mark(8)] };
        assert_eq!(lengths(marks), [9, 8, 7]);
        assert_eq!(lengths(marks.only(mark(8))), [8, 8, 7]);
        assert_eq!(lengths(marks.only(mark(5))), [5, 5, 5]);
    }

    #[test]
    fn where_to_go_on() {
        let first = |length, total| Unfinished { total, ..example() }.next_first(length);
        assert_eq!([0, 5, 10, 11, 12, 15].map(|length| first(length, None)), [0, 5, 10, 10, 10, 15]);
        assert_eq!([0, 5, 10, 12].map(|length| first(length, Some(12))), [0, 5, 10, 10]);
        assert_eq!([5, 10].map(|length| first(length, Some(10))), [5, 5]);
        assert_eq!(first(0, Some(0)), 0);
    }
}
