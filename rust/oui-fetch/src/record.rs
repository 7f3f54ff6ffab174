//! The small file beside a body that is not finished. Before the first block of a stream is added it is replaced as a whole; with each block one of
//! its marks is written over. That is one short write and nothing that waits for the disk, where to replace the file each time would make a large show many
//! times slower.

use crate::files::failed;
use crate::unfinished::{flushed_line, verified_line, Mark, Unfinished, MARK_WIDTH};
use crate::Complaint;
use std::fs::{self, File};
use std::io::{self, Read, Write};
use std::os::unix::fs::FileExt;
use std::path::{Path, PathBuf};

/// What the file is called, behind the body's own name.
const ENDING: &str = ".unfinished";
/// What it is called while it is made.
const ENDING_NEW: &str = ".unfinished.new";
/// No such file has more bytes: a URI has less than a head.
const MOST_BYTES: u64 = 65_536;

/// How one begins again, for complaints.
pub const START_OVER: &str = "to start over, take both files away or leave out --continue";

/// The path of the file beside a body.
pub fn path_of(body: &Path) -> PathBuf {
    with_ending(body, ENDING)
}

fn with_ending(body: &Path, ending: &str) -> PathBuf {
    let mut name = body.as_os_str().to_owned();
    name.push(ending);
    PathBuf::from(name)
}

/// What is recorded of a body; nothing where there is no such file.
pub fn load(body: &Path) -> Result<Option<Unfinished>, Complaint> {
    let path = path_of(body);
    let mut text = Vec::new();
    let read = File::open(&path).and_then(|file| file.take(MOST_BYTES).read_to_end(&mut text));
    match read {
        Err(error) if error.kind() == io::ErrorKind::NotFound => Ok(None),
        Err(error) => Err(failed(&path, error)),
        Ok(_) => Unfinished::parse(&text).map(Some).map_err(|line| {
            let path = path.display();
            format!("{path}: line {line} is not as oui-fetch writes it, so what is verified is not known; {START_OVER}")
        }),
    }
}

/// There is such a file, and no body.
pub fn without_body(body: &Path) -> Complaint {
    format!("{} is not there, though {} is; {START_OVER}", body.display(), path_of(body).display())
}

/// Takes the file away, with one that was not finished.
pub fn remove(body: &Path) -> Result<(), Complaint> {
    for path in [path_of(body), with_ending(body, ENDING_NEW)] {
        match fs::remove_file(&path) {
            Err(error) if error.kind() != io::ErrorKind::NotFound => return Err(failed(&path, error)),
            _ => (),
        }
    }
    Ok(())
}

/// The file, open.
pub struct Record {
    file: File,
    path: PathBuf,
    /// Where its marks start.
    front: u64,
    /// Which of the two marks for what is verified is written next.
    turn: usize,
}

impl Record {
    /// Puts a file in place of the one that is there. The disk has it when this returns.
    pub fn begin(body: &Path, unfinished: &Unfinished) -> Result<Self, Complaint> {
        let (path, new) = (path_of(body), with_ending(body, ENDING_NEW));
        let mut file = File::create(&new).map_err(|error| failed(&new, error))?;
        let written = file.write_all(&unfinished.text()).and_then(|()| file.sync_all());
        written.map_err(|error| failed(&new, error))?;
        let replaced = fs::rename(&new, &path).and_then(|()| flush_folder(body));
        replaced.map_err(|error| failed(&path, error))?;
        let front = unfinished.front().len() as u64;
        Ok(Record { file, path, front, turn: 0 })
    }

    /// A block more is verified and written.
    pub fn verified(&mut self, mark: Mark) -> Result<(), Complaint> {
        self.write(1 + self.turn, &verified_line(mark))?;
        self.turn = 1 - self.turn;
        Ok(())
    }

    /// The disk has so much of the body; it has that in the record, too, when this returns.
    pub fn flushed(&mut self, mark: Mark) -> Result<(), Complaint> {
        self.write(0, &flushed_line(mark))?;
        self.file.sync_all().map_err(|error| failed(&self.path, error))
    }

    fn write(&self, number: usize, line: &[u8]) -> Result<(), Complaint> {
        let place = self.front + (number * MARK_WIDTH) as u64;
        self.file.write_all_at(line, place).map_err(|error| failed(&self.path, error))
    }
}

/// Has the disk keep which files there are beside a body.
fn flush_folder(body: &Path) -> io::Result<()> {
    let folder = body.parent().filter(|folder| !folder.as_os_str().is_empty()).unwrap_or(Path::new("."));
    File::open(folder)?.sync_all()
}
