//! Runs a reader on a case in a folder of its own.

use std::fs::{self, File};
use std::io::{self, Write};
use std::path::{Path, PathBuf};
use std::process::{Child, Command, Stdio};
use std::thread;
use std::time::{Duration, Instant};
use streams::case::{Case, Naming, ANSWERS, CUTS, RING, STREAM};

/// A reader that has not ended by then is stopped.
const PATIENCE: Duration = Duration::from_secs(60);

/// What a reader did with a case.
pub struct Outcome {
    /// Nothing if it did not end by itself.
    pub status: Option<i32>,
    pub output: Vec<u8>,
    pub errors: Vec<u8>,
    /// The released bytes; empty too if no body file was asked for or none was made.
    pub body: Vec<u8>,
}

/// A folder for the files of the case that is run. It goes away with this value.
pub struct Workshop {
    folder: PathBuf,
}

impl Drop for Workshop {
    fn drop(&mut self) {
        let _ = fs::remove_dir_all(&self.folder);
    }
}

impl Workshop {
    pub fn new() -> Result<Self, String> {
        let folder = std::env::temp_dir().join(format!("compare-{}", std::process::id()));
        fs::create_dir_all(&folder).map_err(|error| format!("{}: {error}", folder.display()))?;
        Ok(Workshop { folder })
    }

    /// Runs both programs on the case, at the same time.
    pub fn run(&self, case: &Case, programs: &[PathBuf; 2]) -> Result<[Outcome; 2], String> {
        let failed = |error: io::Error| format!("{}: {error}", self.folder.display());
        self.clear().map_err(failed)?;
        case.write(&self.folder).map_err(failed)?;
        thread::scope(|scope| {
            let other = scope.spawn(|| self.run_one(case, &programs[1], "b"));
            let first = self.run_one(case, &programs[0], "a");
            let second = other.join().map_err(|_| "a thread ended badly".to_string())?;
            Ok([first?, second?])
        })
    }

    /// Takes away what the case before has left.
    fn clear(&self) -> io::Result<()> {
        for entry in fs::read_dir(&self.folder)? {
            let entry = entry?;
            if entry.file_type()?.is_dir() {
                fs::remove_dir(entry.path())?;
            } else {
                fs::remove_file(entry.path())?;
            }
        }
        Ok(())
    }

    fn run_one(&self, case: &Case, program: &Path, name: &str) -> Result<Outcome, String> {
        let failed = |error: io::Error| format!("{}: {error}", program.display());
        let [output, errors, body] = ["output", "errors", "body"].map(|what| format!("{what}-{name}"));
        let mut command = Command::new(program);
        command.current_dir(&self.folder);
        command.arg(if case.through_pipe { "/dev/stdin" } else { STREAM }).arg(RING).arg(ANSWERS);
        if case.cuts.is_some() {
            command.arg(CUTS).arg(&body);
        }
        command.args(options(case));
        command.stdin(if case.through_pipe { Stdio::piped() } else { Stdio::null() });
        command.stdout(File::create(self.folder.join(&output)).map_err(failed)?);
        command.stderr(File::create(self.folder.join(&errors)).map_err(failed)?);
        let mut child = command.spawn().map_err(failed)?;
        let status = thread::scope(|scope| {
            if let Some(mut pipe) = child.stdin.take() {
                // A reader that stops early closes the pipe; that is no fault.
                scope.spawn(move || pipe.write_all(&case.stream));
            }
            wait(&mut child)
        });
        let read = |file: &str| fs::read(self.folder.join(file));
        Ok(Outcome {
            status: status.map_err(failed)?,
            output: read(&output).map_err(failed)?,
            errors: read(&errors).map_err(failed)?,
            body: read(&body).unwrap_or_default(),
        })
    }
}

/// The options of a case. Their order depends on the case alone, so that both orders come and both programs get the same.
fn options(case: &Case) -> Vec<&'static str> {
    let uri = case.naming.words();
    let uri_first = case.naming != Naming::WithoutFile && case.stream.len().is_multiple_of(2);
    if uri_first {
        [uri, &["--where"]].concat()
    } else {
        [&["--where"], uri].concat()
    }
}

/// Waits for the end of a program, and stops it if that takes too long.
fn wait(child: &mut Child) -> io::Result<Option<i32>> {
    let start = Instant::now();
    loop {
        if let Some(status) = child.try_wait()? {
            return Ok(status.code());
        }
        if start.elapsed() > PATIENCE {
            child.kill()?;
            child.wait()?;
            return Ok(None);
        }
        thread::sleep(Duration::from_micros(100));
    }
}
