//! Where the body goes: into a file that is made anew or to standard output, or behind what a file has of it.

use crate::chain::Hash;
use crate::files::{check_other, failed, lock, unbuffered};
use crate::growing::{Growing, Show};
use crate::record;
use crate::Complaint;
use std::fs::File;
use std::io::{self, Write};
use std::os::fd::AsFd;
use std::path::Path;

pub enum Target {
    Anew(Anew),
    Continued(Box<Growing>),
}

impl Target {
    /// Whether the stream of this head will do.
    pub fn head(&mut self, show: &Show) -> Result<(), Complaint> {
        match self {
            Target::Anew(_) => check_beginning(show),
            Target::Continued(body) => body.head(show),
        }
    }

    /// Takes a verified block with its place in the show and its hash.
    pub fn block(&mut self, offset: u64, bytes: &[u8], hash: &Hash) -> Result<(), Complaint> {
        match self {
            Target::Anew(body) => body.write(bytes),
            Target::Continued(body) => body.block(offset, bytes, hash),
        }
    }

    /// How many bytes of the show are there, from its first one on.
    pub fn verified(&self) -> u64 {
        match self {
            Target::Anew(body) => body.written,
            Target::Continued(body) => body.verified(),
        }
    }

    /// At the stream's end.
    pub fn finish(&mut self, is_whole: bool) -> Result<(), Complaint> {
        match self {
            Target::Anew(_) => Ok(()),
            Target::Continued(body) => body.finish(is_whole),
        }
    }
}

/// A body that is written from its first byte on.
pub struct Anew {
    file: File,
    name: String,
    written: u64,
}

impl Anew {
    /// Makes the file anew, unless it is the one that the stream comes from. What was recorded of the old one goes with it.
    pub fn open(path: Option<&Path>, source: &File) -> Result<Self, Complaint> {
        let Some(path) = path else {
            let name = "standard output".to_string();
            let file = unbuffered(io::stdout().as_fd()).map_err(|error| format!("{name}: {error}"))?;
            return Ok(Anew { file, name, written: 0 });
        };
        check_other(path, source)?;
        // It is emptied when nobody else writes it
        let opened = File::options().write(true).create(true).truncate(false).open(path);
        let file = opened.map_err(|error| failed(path, error))?;
        lock(path, &file)?;
        record::remove(path)?;
        if file.metadata().is_ok_and(|metadata| metadata.is_file()) {
            file.set_len(0).map_err(|error| failed(path, error))?;
        }
        Ok(Anew { file, name: path.display().to_string(), written: 0 })
    }

    fn write(&mut self, block: &[u8]) -> Result<(), Complaint> {
        self.written += block.len() as u64;
        self.file.write_all(block).map_err(|error| format!("{}: {error}", self.name))
    }
}

/// A part from the middle of a show is not what whoever waits for the show takes it for.
fn check_beginning(show: &Show) -> Result<(), Complaint> {
    match show.range.filter(|range| range.first > 0) {
        None => Ok(()),
        Some(range) => Err(format!(
            "this is a part of the show, bytes {} to {}, and its beginning was asked for; --continue puts a part behind a body that is there",
            range.first, range.last
        )),
    }
}
