//! A part answer (request #104): a run of a show's blocks, what its head says of them, and what its first line tells of the block before.
//! What a reader must say of it is reckoned here from where the show's blocks begin and end; signatures are those of the whole show.

use crate::base64;
use crate::end::{is_named, is_number};
use crate::head::Field;
use crate::limits::BODY;
use crate::plan::{Built, Kind, Part, Plan, Start};
use crate::random::trimmed;
use crate::sodium;
use std::ops::Range;

pub const RANGE: &str = "Content-Range";
pub const STATUS: &str = "X-Ouinet-HTTP-Status";
/// What the status stands for that a part answer tells in a field.
pub const STATUSES: [&str; 4] = ["200", "301", "302", "307"];

/// A part answer before it is built.
#[derive(Clone)]
pub struct PartAnswer {
    /// The show. Of its blocks it has only those that are sent; its fields have the two more, and its status is the one that was signed.
    pub plan: Plan,
    /// The offset of the first block, as it was signed.
    pub offset: u64,
    /// The hash of the block before, as it was signed; nothing at the beginning of a show.
    pub hash: Vec<u8>,
    /// The hash that the first line tells.
    pub told: Option<Vec<u8>>,
}

impl PartAnswer {
    /// These blocks of a whole show, of which there must be one at least.
    pub fn of(show: &Plan, blocks: Range<usize>) -> Self {
        let total = show.blocks.iter().map(|block| block.len() as u64).sum();
        let mut plan = show.clone();
        plan.blocks = show.blocks[blocks.clone()].to_vec();
        PartAnswer::far(plan, (blocks.start * show.block_size) as u64, total, hash_before(show, blocks.start))
    }

    /// The plan's own blocks as a part of a larger show, of which no more is known than the hash of the block before.
    pub fn far(mut plan: Plan, offset: u64, total: u64, hash: Vec<u8>) -> Self {
        let length: usize = plan.blocks.iter().map(Vec::len).sum();
        let last = offset + length as u64 - 1;
        let status = plan.status.clone();
        plan.fields.push(Field::new(RANGE, format!("bytes {offset}-{last}/{total}")));
        plan.fields.push(Field::new(STATUS, status));
        let told = (offset > 0).then(|| hash.clone());
        PartAnswer { plan, offset, hash, told }
    }

    /// Says that it has other bytes than it has.
    pub fn set_range(&mut self, value: impl Into<Vec<u8>>) {
        self.plan.field(RANGE).value = value.into();
    }

    /// Builds the stream, with what a reader must say of it, all yes.
    pub fn build(&self) -> Built {
        let mut built = self.build_unjudged();
        self.judge(&mut built);
        built
    }

    /// The stream, and what a reader would say of it if nothing were wrong with it.
    pub fn build_unjudged(&self) -> Built {
        let mut built = self.plan.build();
        built.head.status_line = [b"HTTP/1.1 206 ", &self.plan.reason[..]].concat();
        let asked = built.parts[0].lines[0].clone();
        let head = Part { kind: Kind::Head, bytes: built.head.bytes(), lines: vec![asked, "head 206".to_string()] };
        let extension = self.told.as_deref().map_or(Vec::new(), ouihash);
        let said = self.said_offset(&built.head.fields);
        let start = Start { offset: self.offset, said, hash: self.hash.clone(), extension };
        let last = vec![format!("closed {}", built.body.len())];
        let trailer = Part { kind: Kind::Trailer, bytes: self.plan.trailer.clone(), lines: last };
        built.parts = [vec![head], self.plan.body_parts(start), vec![trailer]].concat();
        // Nothing is asked about the end
        built.end_is_signed = true;
        built
    }

    /// Has a reader refuse what is to be refused of a stream that was built from this.
    pub fn judge(&self, built: &mut Built) {
        if let Some((part, number)) = self.fault(built) {
            built.refuse(part, number);
        }
    }

    /// The first rule about part answers that is broken: the part of the stream at whose end that shows, and the refusal's number.
    fn fault(&self, built: &Built) -> Option<(usize, u8)> {
        let Some(sizes) = self.sizes(&built.head.fields) else { return Some((0, 4)) };
        let is_line = |part: &&(usize, &Part)| matches!(part.1.kind, Kind::Line | Kind::ZeroLine);
        let parts: Vec<(usize, &Part)> = built.parts.iter().enumerate().collect();
        let mut due = sizes.iter();
        let mut is_over = false;
        for (line, (place, part)) in parts.iter().filter(is_line).enumerate() {
            let extension = match line {
                0 if self.said_offset(&built.head.fields) == 0 => "",
                0 => ";ouihash=",
                _ => ";ouisig=",
            };
            if name_of_extension(&part.bytes) != extension.as_bytes() {
                return Some((*place, 8));
            }
            let (size, due) = (size_of(&part.bytes), *due.next().unwrap_or(&0));
            // A block that is too short is refused by the line behind it
            if is_over || size > due || size == 0 && due > 0 {
                return Some((*place, 7));
            }
            is_over = size < due;
        }
        None
    }

    /// The sizes of the blocks that the head says are sent. Nothing if it breaks a rule.
    fn sizes(&self, fields: &[Field]) -> Option<Vec<u64>> {
        let values = |name: &'static str| fields.iter().filter(move |field| is_named(field, name));
        let statuses: Vec<Vec<u8>> = values(STATUS).map(|field| trimmed(field.value.clone())).collect();
        let [status] = &statuses[..] else { return None };
        let has_status = STATUSES.iter().any(|known| known.as_bytes() == &status[..]);
        let ranges: Vec<Vec<u8>> = values(RANGE).map(|field| trimmed(field.value.clone())).collect();
        let [range] = &ranges[..] else { return None };
        let [first, last, total] = numbers(range)?;
        let size = self.plan.block_size as u64;
        let end_of_block = |place: u64| total.min((place / size + 1) * size);
        let is_run = first <= last && last < total && first / size * size == first && end_of_block(last) == last + 1;
        if !has_status || !is_run || total > BODY {
            return None;
        }
        // A part of the largest show has many blocks, and no case has more than a few of them
        let starts = (first..=last).step_by(self.plan.block_size).take(self.plan.blocks.len() + 2);
        Some(starts.map(|start| end_of_block(start) - start).collect())
    }

    /// The offset of a good head.
    fn said_offset(&self, fields: &[Field]) -> u64 {
        let range = fields.iter().find(|field| is_named(field, RANGE));
        range.and_then(|field| numbers(&trimmed(field.value.clone()))).map_or(0, |[first, ..]| first)
    }
}

/// What a first line has behind its size.
pub fn ouihash(hash: &[u8]) -> Vec<u8> {
    [b";ouihash=", &base64::encode(hash)[..]].concat()
}

/// The hash of the block before the one of that number; nothing for the first.
pub fn hash_before(show: &Plan, number: usize) -> Vec<u8> {
    show.blocks[..number]
        .iter()
        .fold(Vec::new(), |hash, block| sodium::sha512(&[&hash[..], &block[..]].concat()).to_vec())
}

/// The three numbers of a range that is well written.
pub(crate) fn numbers(range: &[u8]) -> Option<[u64; 3]> {
    let text = std::str::from_utf8(range).ok()?.strip_prefix("bytes ")?;
    let (first, rest) = text.split_once('-')?;
    let (last, total) = rest.split_once('/')?;
    let number = |text: &str| if is_number(text.as_bytes(), 12) { text.parse().ok() } else { None };
    Some([number(first)?, number(last)?, number(total)?])
}

/// What stands between a good line's size and the characters behind it.
fn name_of_extension(line: &[u8]) -> &[u8] {
    let start = line.iter().position(|&byte| byte == b';').unwrap_or(line.len());
    let end = line.iter().position(|&byte| byte == b'=').map_or(line.len(), |place| place + 1);
    &line[start..end]
}

/// The size of a good line.
fn size_of(line: &[u8]) -> u64 {
    let digits = line.iter().take_while(|byte| byte.is_ascii_hexdigit());
    digits.fold(0, |size, &digit| size * 16 + u64::from(char::from(digit).to_digit(16).unwrap_or(0)))
}

#[cfg(test)]
mod tests {
    use super::*;
    use crate::random;
    use crate::rng::Rng;

    /// The lines of a whole show from a block on, and those of the part that begins there, are the same but for the first line.
    #[test]
    fn a_part_is_cut_out_of_the_whole_stream() {
        let mut rng = Rng::new(21);
        for _ in 0..40 {
            let show = random::full_plan(&mut rng);
            let (whole, count) = (show.build(), show.blocks.len());
            let first = rng.below(count);
            let part = PartAnswer::of(&show, first..count).build();
            assert_eq!(part.parts.len(), whole.parts.len() - 3 * first);
            for (mine, theirs) in part.parts[2..part.parts.len() - 1].iter().zip(&whole.parts[3 * first + 2..]) {
                assert_eq!((&mine.bytes, &mine.lines), (&theirs.bytes, &theirs.lines));
            }
            // The head is signed alike
            let signature = |built: &Built| built.head.fields[built.head.index("X-Ouinet-Sig0")].value.clone();
            assert_eq!(signature(&part), signature(&whole));
        }
    }

    #[test]
    fn texts_of_ranges() {
        assert_eq!(numbers(b"bytes 5-11/12"), Some([5, 11, 12]));
        for wrong in
            ["bytes 5-11/*", "bytes 05-11/12", "Bytes 5-11/12", "bytes 5-11/12/13", "bytes 5-6-7/12", "bytes  5-11/12"]
        {
            assert_eq!(numbers(wrong.as_bytes()), None, "{wrong}");
        }
        assert_eq!((name_of_extension(b"5\r\n"), size_of(b"5\r\n")), (&b""[..], 5));
        assert_eq!((name_of_extension(b"0aF;ouihash=A==\r\n"), size_of(b"0aF;")), (&b";ouihash="[..], 0xaf));
    }
}
