//! A body that is gone on with, block by block, from wherever it was left. Beside it stands what is verified of it (`record`).
//!
//! A block is written first, and then recorded. So whenever the program is killed, the file has all that is recorded, and at most one block more,
//! which is cut off when it goes on: that block is lost, and no other. What a loss of power leaves is not known, so what is there is hashed anew
//! before anything is added (`standing`). And the first new block's hash must be over that of what is there: its signature then covers every
//! byte before it, whatever happened to the two files in the meantime.

use crate::chain::{self, Hash};
use crate::files::{check_other, failed, lock};
use crate::record::{self, Record};
use crate::standing::Standing;
use crate::unfinished::{Mark, Marks, Unfinished};
use crate::Complaint;
use ouinet_reader::{another_show, quoted, PartRange};
use std::fs::File;
use std::io;
use std::os::unix::fs::FileExt;
use std::path::{Path, PathBuf};
use std::time::{Duration, Instant};

/// The disk is told to keep what was written so often. With each block it would be slow.
const FLUSH_PAUSE: Duration = Duration::from_secs(5);
/// What is said behind a complaint about the stream.
const LEFT: &str = "what is there was left as it is";

/// What an accepted head says of its show.
pub struct Show<'a> {
    pub uri: &'a [u8],
    pub id: &'a [u8],
    pub block_size: u64,
    pub key: [u8; 32],
    /// Which bytes of it come, if not all.
    pub range: Option<PartRange>,
}

impl Show<'_> {
    /// What is to be recorded of it.
    fn unfinished(&self, total: Option<u64>, marks: Marks) -> Unfinished {
        let total = self.range.map(|range| range.total).or(total);
        Unfinished {
            uri: self.uri.to_vec(),
            id: self.id.to_vec(),
            block_size: self.block_size,
            key: self.key,
            total,
            marks,
        }
    }
}

pub struct Growing {
    file: File,
    path: PathBuf,
    /// What was recorded of the body before this stream, if anything of it was verified.
    before: Option<Unfinished>,
    /// How much of the body is there, and verified.
    verified: Mark,
    /// What is to be recorded, from the stream's head on.
    unfinished: Option<Unfinished>,
    /// From the first block on that is added.
    record: Option<Record>,
    /// What the first block of the stream has to go on from, until that block has come.
    start: Option<Mark>,
    flushed: Instant,
}

impl Growing {
    /// Opens the body, and cuts off what is not verified; what is to be said of that comes with it. Nobody else goes on with it meanwhile.
    pub fn open(path: &Path, source: &File, uri: &[u8]) -> Result<(Self, Option<String>), Complaint> {
        check_other(path, source)?;
        let file = open_body(path)?;
        let standing = Standing::of(path, &file)?;
        let length = file.metadata().map_err(|error| failed(path, error))?.len();
        if standing.is_none() && length > 0 {
            return Err(not_ours(path));
        }
        let note = standing.as_ref().and_then(|standing| standing.note(path));
        let verified = standing.as_ref().map_or(Mark::START, |standing| standing.verified);
        let before = standing.map(|standing| standing.recorded).filter(|_| verified != Mark::START);
        if let Some(before) = before.as_ref().filter(|before| before.uri != uri) {
            return Err(format!("{}: {}", path.display(), another_show(uri, &before.uri)));
        }
        let growing = Growing {
            file,
            path: path.to_path_buf(),
            before,
            verified,
            unfinished: None,
            record: None,
            start: None,
            flushed: Instant::now(),
        };
        growing.cut_back()?;
        Ok((growing, note))
    }

    /// How many bytes of the show are there, all verified.
    pub fn verified(&self) -> u64 {
        self.verified.length
    }

    /// Whether the stream of this head can be gone on with.
    pub fn head(&mut self, show: &Show) -> Result<(), Complaint> {
        if let Some(before) = &self.before {
            self.check_same(before, show)?;
        }
        let first = show.range.map_or(0, |range| range.first);
        let unfinished = match &self.before {
            Some(before) => show.unfinished(before.total, before.marks.only(self.verified)),
            None => show.unfinished(None, Marks::START),
        };
        if first > self.verified.length {
            return Err(self.gap(first, unfinished.next_first(self.verified.length)));
        }
        let hash = match self.verified {
            Mark { length, hash } if length == first => hash,
            _ => chain::over(&self.file, show.block_size, first).map_err(|error| failed(&self.path, error))?,
        };
        self.start = Some(Mark { length: first, hash });
        self.unfinished = Some(unfinished);
        Ok(())
    }

    fn check_same(&self, before: &Unfinished, show: &Show) -> Result<(), Complaint> {
        let body = self.path.display();
        let other = |how: String| Err(format!("this is another show than that in {body}: {how}; {LEFT}"));
        if before.id != show.id {
            return other(format!("its id is {}, and not {}", quoted(show.id), quoted(&before.id)));
        }
        if before.block_size != show.block_size {
            return other(format!("its blocks have {} bytes, and not {}", show.block_size, before.block_size));
        }
        if before.key != show.key {
            return other("it is signed with another key".to_string());
        }
        Ok(())
    }

    /// Takes a verified block with its place in the show and its hash. What is there already must be the same.
    pub fn block(&mut self, offset: u64, bytes: &[u8], hash: &Hash) -> Result<(), Complaint> {
        if self.start.take().is_some_and(|start| chain::next(start.hash.as_ref(), bytes) != *hash) {
            return Err(self.other_bytes("before byte", offset));
        }
        if offset == self.verified.length {
            return self.append(bytes, hash);
        }
        let mut there = vec![0; bytes.len()];
        match self.file.read_exact_at(&mut there, offset) {
            Ok(()) if there == bytes => Ok(()),
            Err(error) if error.kind() != io::ErrorKind::UnexpectedEof => Err(failed(&self.path, error)),
            _ => Err(self.other_bytes("from byte", offset)),
        }
    }

    /// Writes a block, and then records it. What show it is, is recorded before the first one.
    fn append(&mut self, bytes: &[u8], hash: &Hash) -> Result<(), Complaint> {
        if let Some(unfinished) = self.unfinished.take() {
            self.record = Some(Record::begin(&self.path, &unfinished)?);
        }
        let length = self.verified.length;
        if let Err(error) = self.file.write_all_at(bytes, length) {
            // Half a block is of no use; where this fails too, the next --continue does it
            let _ = self.cut_back();
            return Err(failed(&self.path, error));
        }
        self.verified = Mark { length: length + bytes.len() as u64, hash: Some(*hash) };
        if let Some(record) = &mut self.record {
            record.verified(self.verified)?;
        }
        if self.flushed.elapsed() < FLUSH_PAUSE {
            return Ok(());
        }
        self.flush()
    }

    /// Has the disk keep what is there, if anything was added.
    fn flush(&mut self) -> Result<(), Complaint> {
        let Some(record) = &mut self.record else { return Ok(()) };
        self.file.sync_all().map_err(|error| failed(&self.path, error))?;
        self.flushed = Instant::now();
        record.flushed(self.verified)
    }

    /// At the stream's end: where nothing is missing, nothing needs to be recorded any more.
    pub fn finish(&mut self, is_whole: bool) -> Result<(), Complaint> {
        if !is_whole {
            return self.flush();
        }
        self.file.sync_all().map_err(|error| failed(&self.path, error))?;
        record::remove(&self.path)
    }

    /// Cuts off what is not verified.
    fn cut_back(&self) -> Result<(), Complaint> {
        self.file.set_len(self.verified.length).map_err(|error| failed(&self.path, error))
    }

    fn gap(&self, first: u64, next: u64) -> Complaint {
        let (body, verified) = (self.path.display(), self.verified.length);
        let ask = if next > 0 { format!("ask for Range: bytes={next}-") } else { "ask for the whole show".to_string() };
        format!("the part begins at byte {first}, and {body} has only {verified} verified bytes: {ask}; {LEFT}")
    }

    fn other_bytes(&self, place: &str, offset: u64) -> Complaint {
        let body = self.path.display();
        format!(
            "this is another show than that in {body}: it has the same id, but other bytes {place} {offset}; {LEFT}"
        )
    }
}

/// The file of a body, made if there is neither it nor anything recorded, and locked.
fn open_body(path: &Path) -> Result<File, Complaint> {
    let is_recorded = record::path_of(path).exists();
    let opened = File::options().read(true).write(true).create(!is_recorded).truncate(false).open(path);
    let file = opened.map_err(|error| match error.kind() {
        io::ErrorKind::NotFound if is_recorded => record::without_body(path),
        _ => failed(path, error),
    })?;
    if !file.metadata().is_ok_and(|metadata| metadata.is_file()) {
        return Err(format!("{}: --continue needs an ordinary file", path.display()));
    }
    lock(path, &file).map(|()| file)
}

/// There is a body, and nothing recorded of it.
fn not_ours(path: &Path) -> Complaint {
    let (beside, path) = (record::path_of(path), path.display());
    let beside = beside.display();
    format!("{path} is there and {beside} is not: it is finished, or not from --continue; without --continue it is written anew")
}
