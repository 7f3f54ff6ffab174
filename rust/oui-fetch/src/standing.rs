//! What there is of a body before it is gone on with: the verified beginning that its file still has, which is hashed anew to be sure.

use crate::chain;
use crate::files::failed;
use crate::record::{self, START_OVER};
use crate::unfinished::{Mark, Unfinished};
use crate::Complaint;
use std::fs::File;
use std::io;
use std::path::Path;

pub struct Standing {
    pub recorded: Unfinished,
    /// What is still there of that.
    pub verified: Mark,
    /// How many bytes the file has.
    pub length: u64,
}

impl Standing {
    /// What is recorded of a body, held against its file; nothing where nothing is recorded.
    pub fn of(path: &Path, file: &File) -> Result<Option<Self>, Complaint> {
        let Some(recorded) = record::load(path)? else { return Ok(None) };
        let length = file.metadata().map_err(|error| failed(path, error))?.len();
        match still_there(&recorded, file, length).map_err(|error| failed(path, error))? {
            Some(verified) => Ok(Some(Standing { recorded, verified, length })),
            None => Err(lost(path, most_recorded(&recorded), length)),
        }
    }

    /// What is to be said of a file that has not just what was verified.
    pub fn note(&self, path: &Path) -> Option<String> {
        let (path, verified, was) = (path.display(), self.verified.length, most_recorded(&self.recorded));
        if verified < was {
            return Some(format!("{path}: of {was} verified bytes the first {verified} are still there"));
        }
        let more = self.length.checked_sub(verified).filter(|more| *more > 0)?;
        Some(format!("{path}: {more} bytes behind the {verified} verified ones are cut off"))
    }

    /// Where the next part is to begin.
    pub fn next_first(&self) -> u64 {
        self.recorded.next_first(self.verified.length)
    }
}

/// How many bytes were verified, by what is recorded.
fn most_recorded(recorded: &Unfinished) -> u64 {
    recorded.marks.longest_first()[0].length
}

/// The longest recorded beginning that a file of this length has; nothing where there was one, and none is left.
fn still_there(recorded: &Unfinished, file: &File, length: u64) -> io::Result<Option<Mark>> {
    let marks = recorded.marks.longest_first();
    if marks[0] == Mark::START {
        return Ok(Some(Mark::START));
    }
    for mark in marks.into_iter().filter(|mark| *mark != Mark::START && mark.length <= length) {
        if chain::over(file, recorded.block_size, mark.length)? == mark.hash {
            return Ok(Some(mark));
        }
    }
    Ok(None)
}

/// The body is not what was verified.
fn lost(path: &Path, was: u64, length: u64) -> Complaint {
    let (beside, path) = (record::path_of(path), path.display());
    let beside = beside.display();
    if length < was {
        return format!(
            "{path} has {length} bytes, and {was} were verified ({beside}): it was cut since; {START_OVER}"
        );
    }
    format!(
        "{path}: its first {was} bytes are not those that were verified ({beside}): it was changed since; {START_OVER}"
    )
}
