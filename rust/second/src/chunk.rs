//! Chunk lines: the size of a chunk and, on all but the first, the signature of the block before
//! (paper 01, "Blocks", its first three points); on the first line of a part answer that does not start a show, the hash of
//! the block before it (request #104).

use crate::base64;
use crate::event::Refusal;
use crate::part::Part;
use crate::place::longest_beginning;

/// So many bytes without the line's end are refused.
pub const LIMIT: usize = 128;
/// What a chunk line and a chunk's data end with.
pub const END: &[u8] = b"\r\n";
/// The most bytes a body may have.
pub const MOST_BODY: u64 = 4_294_967_296;

/// What stands in front of the 88 characters.
const SIGNATURE: &[u8] = b";ouisig=";
const HASH: &[u8] = b";ouihash=";

/// What a chunk line says.
#[derive(Debug, Clone, PartialEq, Eq)]
pub struct ChunkLine {
    pub size: u32,
    pub extension: Extension,
}

/// What a chunk line says of the block before it. One with both would pass the limit of a line.
#[derive(Debug, Clone, PartialEq, Eq)]
pub enum Extension {
    Nothing,
    Signature([u8; 64]),
    Hash([u8; 64]),
}

impl Extension {
    /// Reads what follows the size. Each has 88 characters, which must be good base64.
    fn parse(text: &[u8]) -> Option<Self> {
        if text.is_empty() {
            return Some(Extension::Nothing);
        }
        match text.strip_prefix(HASH) {
            Some(hash) => base64::decode_signature(hash).map(Extension::Hash),
            None => base64::decode_signature(text.strip_prefix(SIGNATURE)?).map(Extension::Signature),
        }
    }
}

/// Reads a line, given without its CR LF: 1 to 8 hex digits, then nothing, a signature or a hash. Nothing if the text is wrong.
pub fn parse(line: &[u8]) -> Option<ChunkLine> {
    let count = line.iter().take_while(|b| b.is_ascii_hexdigit()).count();
    if !(1..=8).contains(&count) {
        return None;
    }
    let (digits, rest) = line.split_at(count);
    let size = digits.iter().fold(0u32, |number, &digit| number << 4 | hex(digit));
    Some(ChunkLine { size, extension: Extension::parse(rest)? })
}

/// Whether these bytes are a line with its CR LF and have a good text.
pub fn is_good(line: &[u8]) -> bool {
    line.strip_suffix(END).is_some_and(|text| parse(text).is_some())
}

/// Where a whole line, CR LF included, went wrong.
fn place(line: &[u8]) -> usize {
    let [signed, hashed] = [SIGNATURE, HASH].map(|name| [b"0", name, &b"A".repeat(86), b"==", END].concat());
    longest_beginning(line, &[&signed, &hashed], is_good)
}

/// Judges the two bytes after a chunk's data.
pub fn judge_data_end(bytes: &[u8]) -> Result<(), Refusal> {
    if bytes == END {
        return Ok(());
    }
    Err(Refusal::frame(longest_beginning(bytes, &[END], |bytes| bytes == END)))
}

fn hex(digit: u8) -> u32 {
    let value = match digit {
        b'0'..=b'9' => digit - b'0',
        b'a'..=b'f' => digit - b'a' + 10,
        _ => digit - b'A' + 10,
    };
    u32::from(value)
}

/// Where in the body a line comes.
#[derive(Debug, Clone, PartialEq, Eq)]
pub struct Before {
    /// The size every block but the last has.
    pub block_size: u32,
    /// The length of the block before, if there is one in this answer.
    pub block: Option<u32>,
    /// All bytes of this answer's body so far, that block included.
    pub total: u64,
    /// Which bytes a part answer has.
    pub part: Option<Part>,
}

impl Before {
    /// Whether a line here carries just this: every line after a block its signature, and a first line nothing, unless it comes in the
    /// middle of a show.
    fn is_due(&self, extension: &Extension) -> bool {
        let wants_hash = self.part.is_some_and(|part| part.has_block_before());
        match extension {
            Extension::Signature(_) => self.block.is_some(),
            Extension::Hash(_) => self.block.is_none() && wants_hash,
            Extension::Nothing => self.block.is_none() && !wants_hash,
        }
    }

    /// The block rule: no chunk has more than N bytes, and none comes after a block with fewer.
    fn is_block(&self, size: u32) -> bool {
        let after_short = self.block.is_some_and(|length| length < self.block_size);
        size <= self.block_size && (size == 0 || !after_short)
    }

    /// A part answer has as many bytes as it says: "A 0 line before b-a+1 bytes, or a chunk past them, is 7".
    fn is_of_part(&self, size: u32) -> bool {
        let Some(part) = self.part else { return true };
        if size == 0 {
            self.total == part.length()
        } else {
            self.total + u64::from(size) <= part.length()
        }
    }
}

/// Judges a whole line, CR LF included, at its place, in the order 6, 8, 7, 9 (end of "The first line carries").
pub fn judge(line: &[u8], before: &Before) -> Result<ChunkLine, Refusal> {
    let parsed = line.strip_suffix(END).and_then(parse).ok_or_else(|| Refusal::frame(place(line)))?;
    if !before.is_due(&parsed.extension) {
        return Err(Refusal::plain(8));
    }
    if !before.is_block(parsed.size) || !before.is_of_part(parsed.size) {
        return Err(Refusal::plain(7));
    }
    if before.total + u64::from(parsed.size) > MOST_BODY {
        return Err(Refusal::plain(9));
    }
    Ok(parsed)
}

#[cfg(test)]
mod tests {
    use super::*;

    fn size(line: &[u8]) -> Option<u32> {
        parse(line).map(|parsed| parsed.size)
    }

    #[test]
    fn sizes() {
        assert_eq!(size(b"0"), Some(0));
        assert_eq!(size(b"fFfFfFfF"), Some(u32::MAX));
        assert_eq!(size(b"0001aBcD"), Some(0x1abcd));
        for wrong in [&b""[..], b"g", b"5 ", b"5;", b"+5", b"0x5", b"5\r", b"5;ouisig=", b"5;ouihash=", b"5;x=y"] {
            assert_eq!(size(wrong), None);
        }
    }

    fn with(size: &str, name: &str) -> Vec<u8> {
        format!("{size};{name}={}==\r\n", "A".repeat(86)).into_bytes()
    }

    fn with_signature(size: &str) -> Vec<u8> {
        with(size, "ouisig")
    }

    #[test]
    fn extensions() {
        let extension = |line: &[u8]| parse(line.strip_suffix(END).expect("an end")).map(|line| line.extension);
        assert_eq!(extension(b"5\r\n"), Some(Extension::Nothing));
        assert_eq!(extension(&with("5", "ouisig")), Some(Extension::Signature([0; 64])));
        assert_eq!(extension(&with("5", "ouihash")), Some(Extension::Hash([0; 64])));
        for name in ["ouihas", "ouihash2", "Ouihash", " ouihash", "ouihash ", "ouihsig", "hash", ""] {
            assert_eq!(extension(&with("5", name)), None, "{name}");
        }
    }

    #[test]
    fn the_order_of_refusals() {
        let first = Before { block_size: 5, block: None, total: 0, part: None };
        let full = Before { block: Some(5), total: 5, ..first.clone() };
        let short = Before { block: Some(4), total: 4, ..first.clone() };
        let long = Before { block: Some(5), total: MOST_BODY - 4, ..first.clone() };
        let refused =
            |line: &[u8], before| judge(line, before).map_err(|refusal| (refusal.number, refusal.at)).map(|_| ());
        assert_eq!(refused(b"6 \r\n", &full), Err((6, Some(1))));
        assert_eq!(refused(b"6\r\n", &full), Err((8, None)));
        assert_eq!(refused(&with_signature("6"), &first), Err((8, None)));
        assert_eq!(refused(&with_signature("6"), &full), Err((7, None)));
        assert_eq!(refused(&with_signature("1"), &short), Err((7, None)));
        assert_eq!(refused(&with_signature("6"), &long), Err((7, None)));
        assert_eq!(refused(&with_signature("5"), &long), Err((9, None)));
        assert!(judge(&with_signature("4"), &long).is_ok());
        assert!(judge(&with_signature("0"), &short).is_ok());
        assert!(judge(b"4\r\n", &first).is_ok());
    }
}
