//! The program's files: where a show or a stream comes from, and where a stream goes. Every complaint names the file.

use std::fs::File;
use std::io::{self, BufWriter, Write};
use std::os::fd::AsFd;
use std::os::unix::fs::MetadataExt;
use std::path::Path;

pub fn failed(what: &str, error: io::Error) -> String {
    format!("{what}: {error}")
}

/// A source that is open, and a target that is not made yet. They are not the same file.
pub struct Files<'a> {
    pub input: File,
    source: Option<&'a str>,
    target: Option<&'a str>,
}

impl<'a> Files<'a> {
    /// Opens the source, a file or standard input. Without a name, or with `-` for one, both are the standard streams.
    pub fn open(source: Option<&'a str>, target: Option<&'a str>) -> Result<Self, String> {
        let source = source.filter(|name| *name != "-");
        let target = target.filter(|name| *name != "-");
        let opened = match source {
            Some(path) => File::open(path),
            None => io::stdin().as_fd().try_clone_to_owned().map(File::from),
        };
        let input = opened.map_err(|error| failed(source.unwrap_or("standard input"), error))?;
        if let Some(path) = target.filter(|path| is_same(path, &input)) {
            return Err(format!("{path}: the stream would be written over its own source"));
        }
        Ok(Files { input, source, target })
    }

    /// What the source is called in a complaint.
    pub fn source(&self) -> &'a str {
        self.source.unwrap_or("standard input")
    }

    /// What the target is called in a complaint.
    pub fn target(&self) -> &'a str {
        self.target.unwrap_or("standard output")
    }

    /// Makes the target.
    pub fn output(&self) -> Result<impl Write, String> {
        let output: Box<dyn Write> = match self.target {
            Some(path) => Box::new(File::create(path).map_err(|error| failed(path, error))?),
            None => Box::new(io::stdout().lock()),
        };
        Ok(BufWriter::with_capacity(1 << 17, output))
    }
}

/// Whether the path leads to the ordinary file that is open.
pub fn is_same(path: &str, open: &File) -> bool {
    match (Path::new(path).metadata(), open.metadata()) {
        (Ok(a), Ok(b)) => a.is_file() && (a.dev(), a.ino()) == (b.dev(), b.ino()),
        _ => false,
    }
}
