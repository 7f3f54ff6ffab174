//! The program's files. Every complaint names the file.

use crate::Complaint;
use ouinet_reader::raw::HEAD_SIZE;
use ouinet_reader::{head_uri, Ring};
use std::fs::{File, TryLockError};
use std::io::{self, Cursor, Read};
use std::os::fd::{AsFd, BorrowedFd};
use std::os::unix::fs::MetadataExt;
use std::path::Path;

/// No good ring comes near to so many bytes.
const MOST_RING: u64 = 65_536;

pub fn failed(path: &Path, error: io::Error) -> Complaint {
    format!("{}: {error}", path.display())
}

/// The key ring. A fault in it is told with its line.
pub fn load_ring(path: &Path) -> Result<Ring, Complaint> {
    let mut text = Vec::new();
    let file = File::open(path).map_err(|error| failed(path, error))?;
    file.take(MOST_RING).read_to_end(&mut text).map_err(|error| failed(path, error))?;
    Ring::parse(&text).map_err(|fault| format!("{}: {fault}", path.display()))
}

/// No section that is judged by its text has more bytes; a head and a trailer may have as many.
pub const MOST_SECTION: usize = HEAD_SIZE;
/// What is kept of the stream may grow by so many bytes before the older ones are dropped.
const SPARE: usize = 65_536;

/// Where the stream comes from. Its head may be read ahead of the rest. The last bytes that were read are kept, for a diagnosis: all of
/// the last read, and before it as many as a section can have.
pub struct Source {
    file: File,
    /// What was read ahead; the next reads start from it.
    ahead: Cursor<Vec<u8>>,
    recent: Vec<u8>,
    /// How many bytes were read.
    count: u64,
}

impl Source {
    fn new(file: File) -> Self {
        Source { file, ahead: Cursor::default(), recent: Vec::new(), count: 0 }
    }

    pub fn file(&self) -> &File {
        &self.file
    }

    /// The URI that the head gives, before anything else is read; empty where it gives none. The head is read ahead for it.
    pub fn head_uri(&mut self) -> io::Result<Vec<u8>> {
        let head = read_head(&mut self.file)?;
        let uri = head_uri(&head).unwrap_or_default().to_vec();
        self.ahead = Cursor::new(head);
        Ok(uri)
    }

    /// Bytes of the stream that were read lately, by their offset.
    pub fn recent(&self, start: u64, length: u64) -> Option<&[u8]> {
        let first = self.count - self.recent.len() as u64;
        let start = usize::try_from(start.checked_sub(first)?).ok()?;
        self.recent.get(start..start.checked_add(usize::try_from(length).ok()?)?)
    }

    fn keep(&mut self, bytes: &[u8]) {
        if self.recent.len() > MOST_SECTION + SPARE {
            self.recent.drain(..self.recent.len() - MOST_SECTION);
        }
        self.recent.extend_from_slice(bytes);
        self.count += bytes.len() as u64;
    }
}

impl Read for Source {
    fn read(&mut self, out: &mut [u8]) -> io::Result<usize> {
        let count = match self.ahead.read(out)? {
            0 => self.file.read(out)?,
            count => count,
        };
        self.keep(&out[..count]);
        Ok(count)
    }
}

/// The beginning of a stream: up to the read that brings its head's end, to as many bytes as a head may have, or to the end of the stream. A
/// sender may wait after its head, so nothing is read beyond.
fn read_head(from: &mut impl Read) -> io::Result<Vec<u8>> {
    let mut head = Vec::new();
    let mut piece = [0; MOST_SECTION];
    // An end that a read brings begins among its bytes or the three before them
    let mut searched = 0;
    while head.len() < MOST_SECTION && !head[searched..].windows(4).any(|four| four == b"\r\n\r\n") {
        searched = head.len().saturating_sub(3);
        match from.read(&mut piece[..MOST_SECTION - head.len()]) {
            Ok(0) => break,
            Ok(count) => head.extend_from_slice(&piece[..count]),
            Err(error) if error.kind() == io::ErrorKind::Interrupted => (),
            Err(error) => return Err(error),
        }
    }
    Ok(head)
}

/// What standard input and output are called in a complaint, and any other file by its path.
pub fn stream_name(path: Option<&Path>) -> String {
    path.map_or("standard input".to_string(), |path| path.display().to_string())
}

/// A second handle of a standard stream, without its buffer: blocks are large and go out at once.
pub fn unbuffered(stream: BorrowedFd) -> io::Result<File> {
    Ok(stream.try_clone_to_owned()?.into())
}

pub fn open_stream(path: Option<&Path>) -> Result<Source, Complaint> {
    let opened = match path {
        Some(path) => File::open(path),
        None => unbuffered(io::stdin().as_fd()),
    };
    opened.map(Source::new).map_err(|error| format!("{}: {error}", stream_name(path)))
}

/// A body does not go where its stream comes from.
pub fn check_other(path: &Path, source: &File) -> Result<(), Complaint> {
    if is_same(path, source) {
        return Err(format!("{}: the body would be written over the stream", path.display()));
    }
    Ok(())
}

/// Keeps other programs like this one from a body while it is written.
pub fn lock(path: &Path, body: &File) -> Result<(), Complaint> {
    match body.try_lock() {
        Err(TryLockError::WouldBlock) => Err(format!("{}: another oui-fetch is writing it", path.display())),
        // Where files cannot be locked, they can still be written
        _ => Ok(()),
    }
}

/// Whether the path leads to the ordinary file that is open.
fn is_same(path: &Path, open: &File) -> bool {
    match (path.metadata(), open.metadata()) {
        (Ok(a), Ok(b)) => a.is_file() && (a.dev(), a.ino()) == (b.dev(), b.ino()),
        _ => false,
    }
}

#[cfg(test)]
mod tests {
    use super::*;
    use std::vec::IntoIter;

    /// One piece at each read, and nothing to read after the last one.
    struct Pieces<'a>(IntoIter<&'a [u8]>);

    impl Read for Pieces<'_> {
        fn read(&mut self, out: &mut [u8]) -> io::Result<usize> {
            let piece = self.0.next().ok_or_else(|| io::Error::other("read on after the head"))?;
            out[..piece.len()].copy_from_slice(piece);
            Ok(piece.len())
        }
    }

    fn check(head: &[u8], pieces: Vec<&[u8]>) {
        assert_eq!(read_head(&mut Pieces(pieces.into_iter())).expect("no read after the head"), head);
    }

    #[test]
    fn nothing_is_read_after_a_head() {
        let head = b"HTTP/1.1 200 OK\r\nA: b\r\n\r\n";
        for one in 1..head.len() - 1 {
            for two in one + 1..head.len() {
                check(head, vec![&head[..one], &head[one..two], &head[two..]]);
            }
        }
        check(head, head.chunks(1).collect());
    }

    #[test]
    fn nor_after_as_many_bytes_as_a_head_may_have() {
        let text = b"x".repeat(MOST_SECTION);
        check(&text, text.chunks(1000).collect());
    }
}
