//! `streams`: writes the example, a corpus of cases, or a long stream. See `usage` below.

use std::fs::{self, File};
use std::io::{self, BufWriter, Write};
use std::path::Path;
use std::process::ExitCode;
use streams::case::{Answering, Case, ANSWERS, ASKED, RING};
use streams::options::{parse_number, Options};
use streams::plan::Built;
use streams::rng::Rng;
use streams::sequence::{self, Group, Sequence};
use streams::{example, long};

const USAGE: &str = "\
usage:
  streams example DIR
      the example of document 000: stream, ring, answers, uri, expected
  streams example-part DIR
      the same for the document's answer that has the second half of it
  streams corpus --seed S --count N [--groups LIST] DIR
      N cases of the seed, a folder each, and an index with what is expected
  streams long BYTES [--block-size N]
      a stream with a body of so many bytes, to standard output
  streams long-files BYTES [--block-size N] DIR
      the ring, the answers and the URI for such a stream";

fn main() -> ExitCode {
    let words: Vec<String> = std::env::args().skip(1).collect();
    match run(&words) {
        Ok(()) => ExitCode::SUCCESS,
        Err(complaint) => {
            eprintln!("streams: {complaint}");
            ExitCode::from(2)
        }
    }
}

fn run(words: &[String]) -> Result<(), String> {
    let (command, rest) = words.split_first().ok_or(USAGE)?;
    let mut options = Options::parse(rest, USAGE)?;
    match command.as_str() {
        "example" | "example-part" => {
            let folder = options.plain("DIR")?;
            options.done()?;
            let built = if command == "example" { example::plan().build() } else { example::part().build() };
            write_example(command, &built, Path::new(&folder))
        }
        "corpus" => {
            let seed = options.number("--seed")?.ok_or("corpus needs --seed S")?;
            let count = options.number("--count")?.ok_or("corpus needs --count N")?;
            let groups = match options.named("--groups") {
                Some(list) => sequence::parse_groups(&list)?,
                None => sequence::all_groups(),
            };
            let folder = options.plain("DIR")?;
            options.done()?;
            write_corpus(seed, count, &groups, Path::new(&folder))
        }
        "long" => {
            let block_size = options.block_size()?;
            let length = parse_number("BYTES", &options.plain("BYTES")?)?;
            options.done()?;
            write_long(length, block_size)
        }
        "long-files" => {
            let block_size = options.block_size()?;
            let length = parse_number("BYTES", &options.plain("BYTES")?)?;
            let folder = options.plain("DIR")?;
            options.done()?;
            write_long_files(length, block_size, Path::new(&folder))
        }
        other => Err(format!("no command {other:?}\n{USAGE}")),
    }
}

fn failed(path: &Path, error: io::Error) -> String {
    format!("{}: {error}", path.display())
}

/// Writes a case and its expectation into a folder.
fn write_case(case: &Case, folder: &Path) -> Result<(), String> {
    fs::create_dir_all(folder).map_err(|error| failed(folder, error))?;
    case.write(folder).map_err(|error| failed(folder, error))?;
    let expected = folder.join("expected");
    fs::write(&expected, case.expected_text()).map_err(|error| failed(&expected, error))
}

/// All answers are yes, and no more of them than are asked for.
fn write_example(name: &str, built: &Built, folder: &Path) -> Result<(), String> {
    let mut case = Case::whole(name, built, Answering::AllYes, &mut Rng::new(0));
    case.cuts = None;
    let questions = built.lines().iter().filter(|line| line.starts_with("question")).count();
    case.answers = [&b"y".repeat(questions)[..], b"\n"].concat();
    write_case(&case, folder)
}

fn write_corpus(seed: u64, count: u64, groups: &[Group], folder: &Path) -> Result<(), String> {
    fs::create_dir_all(folder).map_err(|error| failed(folder, error))?;
    let path = folder.join("index");
    let mut index = BufWriter::new(File::create(&path).map_err(|error| failed(&path, error))?);
    let mut written = 0;
    for (number, case) in Sequence::new(seed, groups).take(count as usize).enumerate() {
        let name = format!("{number:06}");
        write_case(&case, &folder.join(&name))?;
        writeln!(index, "{name}\t{}\t{}", case.expected.summary(), case.label).map_err(|error| failed(&path, error))?;
        written += 1;
    }
    index.flush().map_err(|error| failed(&path, error))?;
    println!("seed {seed}: {written} cases in {}", folder.display());
    Ok(())
}

/// A reader that stops early closes the pipe; that is no fault.
fn write_long(length: u64, block_size: usize) -> Result<(), String> {
    let mut out = BufWriter::with_capacity(1 << 17, io::stdout().lock());
    match long::write_stream(length, block_size, &mut out) {
        Err(error) if error.kind() == io::ErrorKind::BrokenPipe => Ok(()),
        other => other.map_err(|error| format!("standard output: {error}")),
    }
}

fn write_long_files(length: u64, block_size: usize, folder: &Path) -> Result<(), String> {
    fs::create_dir_all(folder).map_err(|error| failed(folder, error))?;
    for (name, bytes) in [(RING, long::ring()), (ASKED, long::uri())] {
        let path = folder.join(name);
        fs::write(&path, bytes).map_err(|error| failed(&path, error))?;
    }
    let answers = folder.join(ANSWERS);
    let file = File::create(&answers).map_err(|error| failed(&answers, error))?;
    let mut out = BufWriter::new(file);
    let written = long::write_answers(length, block_size, &mut out).and_then(|()| out.flush());
    written.map_err(|error| failed(&answers, error))
}
