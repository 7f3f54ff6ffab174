//! A part answer cut out of a signed stream: what a kit sends that has a show and is asked for a range of it. No key is needed: the head's
//! signature and those of the blocks are the stream's own, and the chain of hashes starts from the block before.

use crate::scan::{why, Block, Fault as ScanFault, Scan};
use second::head::{self, Head};
use std::io::{self, Read, Seek, SeekFrom, Write};
use streams::base64;
use streams::head::Field;
use streams::options::Options;

const RANGE: &str = "Content-Range";
const STATUS: &str = "X-Ouinet-HTTP-Status";
/// What a part's head begins with.
const STATUS_LINE: &[u8] = b"HTTP/1.1 206 Partial Content\r\n";

/// The bytes that are asked for, both ends among them.
pub struct Wanted {
    from: u64,
    to: Option<u64>,
}

impl Wanted {
    pub fn from(options: &mut Options) -> Result<Self, String> {
        let from = options.number("--from")?.ok_or("from which byte on? --from BYTE; see oui-sign --help")?;
        let to = options.number("--to")?;
        if let Some(to) = to.filter(|to| *to < from) {
            return Err(format!("the last byte, --to {to}, comes before the first, --from {from}"));
        }
        Ok(Wanted { from, to })
    }
}

/// Why a part was not written.
#[derive(Debug)]
pub enum Fault {
    Read(io::Error),
    Write(io::Error),
    /// The source cannot be read a second time.
    Once,
    /// What is wrong with the stream, or with the bytes that are asked for.
    Stream(String),
}

impl From<ScanFault> for Fault {
    fn from(fault: ScanFault) -> Self {
        match fault {
            ScanFault::Read(error) => Fault::Read(error),
            ScanFault::Refused(number) => {
                Fault::Stream(format!("no good signed stream: refused {number}, {}", why(number)))
            }
        }
    }
}

/// A part of a show.
pub struct Part {
    /// Its first byte, and the place after its last one.
    first: u64,
    end: u64,
    head: Vec<u8>,
    /// The hash of the block before it, if there is one.
    before: Option<[u8; 64]>,
    trailer: Vec<u8>,
}

impl Part {
    /// Reads the stream to its end, for the length of the show, and back to where it started. The part has the blocks that hold the bytes asked for.
    pub fn survey(source: &mut (impl Read + Seek), wanted: &Wanted) -> Result<Self, Fault> {
        let start = source.stream_position().map_err(|_| Fault::Once)?;
        let mut scan = Scan::start(&mut *source)?;
        check_head(&scan.head)?;
        let size = u64::from(scan.head.block_size);
        let first = wanted.from - wanted.from % size;
        let (mut total, mut before) = (0, None);
        while let Some(block) = scan.next_block()? {
            total = block.offset + block.bytes.len() as u64;
            before = if total == first { Some(block.hash) } else { before };
        }
        check_from(wanted.from, total)?;
        let last = wanted.to.unwrap_or(total).min(total - 1);
        let end = ((last / size + 1) * size).min(total);
        let head = part_head(&scan.head, &scan.head_bytes, first, end, total)?;
        let trailer = scan.into_trailer();
        source.seek(SeekFrom::Start(start)).map_err(|_| Fault::Once)?;
        Ok(Part { first, end, head, before, trailer })
    }

    /// Writes the part, from the same stream.
    pub fn write(&self, source: impl Read, mut out: impl Write) -> Result<(), Fault> {
        let mut scan = Scan::start(source)?;
        out.write_all(&self.head).map_err(Fault::Write)?;
        let mut extension = self.before.map_or(Vec::new(), |hash| [b";ouihash=", &base64::encode(&hash)[..]].concat());
        let mut place = 0;
        while place < self.end {
            let block = scan.next_block()?.ok_or_else(changed)?;
            place = block.offset + block.bytes.len() as u64;
            if place == self.first && Some(block.hash) != self.before {
                return Err(changed());
            }
            if place > self.first {
                write_block(&mut out, &block, &extension).map_err(Fault::Write)?;
                extension = [b";ouisig=", &base64::encode(&block.signature)[..]].concat();
            }
        }
        let end = [b"0", &extension[..], b"\r\n", &self.trailer].concat();
        out.write_all(&end).and_then(|()| out.flush()).map_err(Fault::Write)
    }
}

fn write_block(out: &mut impl Write, block: &Block, extension: &[u8]) -> io::Result<()> {
    write!(out, "{:x}", block.bytes.len())?;
    out.write_all(extension)?;
    out.write_all(b"\r\n")?;
    out.write_all(block.bytes)?;
    out.write_all(b"\r\n")
}

fn changed() -> Fault {
    Fault::Stream("the stream has changed since it was read first".to_string())
}

/// Whether the show has that byte.
fn check_from(from: u64, total: u64) -> Result<(), Fault> {
    match total {
        0 => Err(Fault::Stream("the show is empty, and has no parts".to_string())),
        _ if from >= total => {
            let last = total - 1;
            Err(Fault::Stream(format!("the show has {total} bytes, so --from is at most {last}, and not {from}")))
        }
        _ => Ok(()),
    }
}

/// Whether a part's head can be made of this one.
fn check_head(head: &Head) -> Result<(), Fault> {
    if head.status == 206 {
        return Err(Fault::Stream("a part answer itself, and parts are cut out of whole answers".to_string()));
    }
    match [RANGE, STATUS].iter().find(|name| head.signed(name.as_bytes()).is_some()) {
        Some(name) => Err(Fault::Stream(format!("its head signs {name}, which a part answer has of its own"))),
        None => Ok(()),
    }
}

/// The head of the whole answer as that of a part: another status line, and two fields more.
fn part_head(head: &Head, bytes: &[u8], first: u64, end: u64, total: u64) -> Result<Vec<u8>, Fault> {
    let lines = bytes.split_inclusive(|&byte| byte == b'\n').skip(1);
    let mut kept: Vec<&[u8]> = lines.filter(|line| !is_of_parts(line)).collect();
    let added = [
        Field::new(RANGE, format!("bytes {first}-{}/{total}", end - 1)).line(),
        Field::new(STATUS, head.status.to_string()).line(),
    ];
    // The empty line stays last
    let empty_line = kept.pop().unwrap_or_default();
    check_sizes(kept.len() + added.len(), &[STATUS_LINE, &kept.concat(), &added.concat(), empty_line].concat())
}

/// Whether a line is of a field that a part answer has of its own.
fn is_of_parts(line: &[u8]) -> bool {
    let name = line.split(|&byte| byte == b':').next().unwrap_or(line);
    [RANGE, STATUS].iter().any(|own| name.eq_ignore_ascii_case(own.as_bytes()))
}

/// The head, if it keeps within its limits.
fn check_sizes(fields: usize, head: &[u8]) -> Result<Vec<u8>, Fault> {
    for (what, count, most) in [("fields", fields, head::MOST_FIELDS), ("bytes", head.len(), head::LIMIT)] {
        if count > most {
            return Err(Fault::Stream(format!("the head of a part has {count} {what}, and {most} are the most")));
        }
    }
    Ok(head.to_vec())
}
