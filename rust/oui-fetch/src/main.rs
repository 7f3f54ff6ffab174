//! `oui-fetch`: reads a signed stream, verifies it with libsodium's Ed25519, and writes the body as it is verified. See
//! `options::USAGE`.

#![forbid(unsafe_code)]

mod chain;
mod diagnosis;
mod ends;
mod excerpt;
mod files;
mod growing;
mod json;
mod last_word;
mod options;
mod progress;
mod record;
mod sitting;
mod standing;
mod target;
mod unfinished;

use files::Source;
use growing::Growing;
use options::{Asked, Options, Wanted};
use ouinet_reader::{run, Ending, Question, RunError};
use progress::Progress;
use sitting::Sitting;
use standing::Standing;
use std::fs::File;
use std::io::{self, IsTerminal, Write};
use std::path::Path;
use std::process::ExitCode;
use target::{Anew, Target};

/// What goes to standard error where a file or a stream cannot be used, as one line.
type Complaint = String;

/// The exit status of a refused stream.
const REFUSED: u8 = 1;
/// The exit status where words, files or the stream's place in the show are no good.
const TROUBLE: u8 = 2;
/// The exit status of a stream that is closed where it had to be complete, or where bytes are missing.
const NOT_COMPLETE: u8 = 3;

fn main() -> ExitCode {
    let words: Vec<_> = std::env::args_os().skip(1).collect();
    let done = match Options::parse(&words) {
        Ok(Asked::Help) => {
            println!("{}", options::USAGE);
            Ok(ExitCode::SUCCESS)
        }
        Ok(Asked::RangeFor(body)) => tell_range(&body).map(|()| ExitCode::SUCCESS),
        Ok(Asked::Fetch(options)) => fetch(&options),
        Err(complaint) => Err(complaint),
    };
    done.unwrap_or_else(|complaint| {
        eprintln!("oui-fetch: {complaint}");
        ExitCode::from(TROUBLE)
    })
}

/// What to ask for, so that a body can be gone on with. Its file is looked at, and not changed.
fn tell_range(body: &Path) -> Result<(), Complaint> {
    let standing = match File::open(body) {
        Ok(file) => Standing::of(body, &file)?,
        Err(error) if error.kind() != io::ErrorKind::NotFound => return Err(files::failed(body, error)),
        Err(_) if record::path_of(body).exists() => return Err(record::without_body(body)),
        Err(_) => None,
    };
    match standing.map(|standing| standing.next_first()) {
        Some(first) if first > 0 => writeln!(io::stdout(), "Range: bytes={first}-"),
        _ => {
            let body = body.display();
            writeln!(
                io::stderr(),
                "oui-fetch: {body}: nothing is known to be verified; ask for the whole show, without a Range"
            )
        }
    }
    .map_err(|error| format!("standard output: {error}"))
}

/// Reads the stream to its end, and says how it went. The target is made last, so that it is left alone where another file is no good.
fn fetch(options: &Options) -> Result<ExitCode, Complaint> {
    let ring = files::load_ring(&options.ring)?;
    let mut source = files::open_stream(options.stream.as_deref())?;
    let not_read = |error| format!("{}: {error}", files::stream_name(options.stream.as_deref()));
    let (uri, taken_uri) = match &options.wanted {
        Wanted::Uri(uri) => (uri.clone(), None),
        Wanted::Any => source.head_uri().map(|uri| (uri.clone(), Some(uri))).map_err(not_read)?,
    };
    let mut progress = Progress::new(!options.quiet && !writes_to_terminal(options));
    let target = open_target(options, &source, &uri, &mut progress)?;
    let mut sitting = Sitting::new(options, taken_uri, target, progress);
    let ending = run(&mut source, ring, uri, verify, |reader, event| sitting.on(reader, event));
    sitting.progress.clear();
    let ending = ending.map_err(|error| match error {
        RunError::Read(error) => not_read(error),
        RunError::Stopped(complaint) => complaint,
    })?;
    sitting.finish(&ending)?;
    if !options.quiet {
        eprintln!("oui-fetch: {}", sitting.last_word(&ending, &source));
    }
    Ok(status(&sitting, &ending))
}

fn open_target(options: &Options, source: &Source, uri: &[u8], progress: &mut Progress) -> Result<Target, Complaint> {
    let Some(body) = options.body.as_deref().filter(|_| options.goes_on) else {
        return Anew::open(options.body.as_deref(), source.file()).map(Target::Anew);
    };
    progress.say(&format!("checking {}", body.display()));
    let opened = Growing::open(body, source.file(), uri);
    progress.clear();
    let (growing, note) = opened?;
    if let Some(note) = note.filter(|_| !options.quiet) {
        eprintln!("oui-fetch: {note}");
    }
    Ok(Target::Continued(Box::new(growing)))
}

fn status(sitting: &Sitting, ending: &Ending) -> ExitCode {
    match ending {
        Ending::Refused(_) => ExitCode::from(REFUSED),
        Ending::Closed { .. } if sitting.options.require_complete => ExitCode::from(NOT_COMPLETE),
        _ if !sitting.has_all(ending) => ExitCode::from(NOT_COMPLETE),
        _ => ExitCode::SUCCESS,
    }
}

/// Whether the body or the lines of JSON go to a terminal, where progress would be written among them.
fn writes_to_terminal(options: &Options) -> bool {
    (options.json || options.body.is_none()) && io::stdout().is_terminal()
}

fn verify(question: &Question) -> bool {
    sodium::verify(question.key, question.message, question.signature)
}
