//! `ouiread-second STREAM RING ANSWERS [CUTS [BODY]] --uri FILE [--where]`: reads a stream with a key ring and a list of
//! answers and writes one line for each event. The bytes of the file after `--uri`, all of them, are the URI asked for; a
//! line on standard error tells of a head that gives another. With `--where` the line of a refusal 3 or 6 says where the text
//! went wrong. See `second` for the reading itself.

#![forbid(unsafe_code)]

use second::event::{Event, Refusal};
use second::files::{self, AnswerFault, Answers, Fault};
use second::head;
use second::reader::Reader;
use second::ring::Record;
use std::ffi::OsString;
use std::fs::File;
use std::io::{self, BufReader, Read, Seek, Write};
use std::path::Path;
use std::process::ExitCode;

/// What goes to standard error, as one line.
type Complaint = String;

fn main() -> ExitCode {
    let arguments: Vec<OsString> = std::env::args_os().skip(1).collect();
    let paths: Vec<&Path> = arguments.iter().map(Path::new).collect();
    match run(&paths) {
        Ok(()) => ExitCode::SUCCESS,
        Err(complaint) => {
            eprintln!("ouiread-second: {complaint}");
            ExitCode::from(2)
        }
    }
}

/// What the program's words say: its files, in order, and the options after them.
struct Words<'a> {
    paths: &'a [&'a Path],
    uri: &'a Path,
    places: bool,
}

impl<'a> Words<'a> {
    /// Options come in any order, each at most once. The word right after `--uri` is a file's name, whatever it looks like.
    fn parse(words: &'a [&'a Path]) -> Option<Self> {
        let is_option = |word: &&Path| word.as_os_str().as_encoded_bytes().starts_with(b"--");
        let (paths, options) = words.split_at(words.iter().position(is_option)?);
        let (mut uri, mut places) = (None, false);
        let mut options = options.iter();
        while let Some(option) = options.next() {
            match option.to_str() {
                Some("--where") if !places => places = true,
                Some("--uri") if uri.is_none() => uri = Some(*options.next()?),
                _ => return None,
            }
        }
        (3..=5).contains(&paths.len()).then_some(Words { paths, uri: uri?, places })
    }
}

fn run(words: &[&Path]) -> Result<(), Complaint> {
    let usage = "usage: ouiread-second STREAM RING ANSWERS [CUTS [BODY]] --uri FILE [--where]";
    let Words { paths, uri, places } = Words::parse(words).ok_or(usage)?;
    let asked = load_uri(uri)?;
    let ring = load_ring(paths[1])?;
    let answers = open_answers(paths[2])?;
    let cuts = match paths.get(3) {
        Some(path) => load_cuts(path)?,
        None => vec![files::MOST_PIECE],
    };
    let stream = BufReader::with_capacity(files::MOST_PIECE, open(paths[0])?);
    let body = match paths.get(4) {
        Some(path) => Some(File::create(path).map_err(|error| failed(path, &error))?),
        None => None,
    };
    Sitting {
        stream,
        stream_path: paths[0],
        answers,
        answers_path: paths[2],
        body,
        body_path: paths.get(4).copied().unwrap_or(Path::new("")),
        reader: Reader::new(ring, asked),
        places,
    }
    .read_all(&cuts)
}

fn failed(path: &Path, error: &io::Error) -> Complaint {
    format!("{}: {error}", path.display())
}

fn at_line(path: &Path, fault: &Fault) -> Complaint {
    format!("{}: line {}: {}", path.display(), fault.line, fault.what)
}

fn answer_failed(path: &Path, fault: AnswerFault) -> Complaint {
    match fault {
        AnswerFault::Text(fault) => at_line(path, &fault),
        AnswerFault::Read(error) => failed(path, &error),
    }
}

fn open(path: &Path) -> Result<File, Complaint> {
    File::open(path).map_err(|error| failed(path, &error))
}

/// The bytes of the URI's file. A URI in a head is shorter than the head's limit, and by more than what is shown of the asked one behind
/// the first byte that differs, so a file that is not can hold anything after that.
fn load_uri(path: &Path) -> Result<Vec<u8>, Complaint> {
    let mut bytes = Vec::new();
    let mut beginning = open(path)?.take(head::LIMIT as u64);
    beginning.read_to_end(&mut bytes).map_err(|error| failed(path, &error))?;
    Ok(bytes)
}

/// The beginning of a file, which holds all of it if the file is good.
fn load_text(path: &Path) -> Result<Vec<u8>, Complaint> {
    let mut text = Vec::new();
    let read = open(path)?.take(files::MOST_TEXT).read_to_end(&mut text);
    read.map_err(|error| failed(path, &error))?;
    Ok(text)
}

fn load_ring(path: &Path) -> Result<Vec<Record>, Complaint> {
    files::parse_ring(&load_text(path)?).map_err(|fault| at_line(path, &fault))
}

fn load_cuts(path: &Path) -> Result<Vec<usize>, Complaint> {
    files::parse_cuts(&load_text(path)?).map_err(|fault| at_line(path, &fault))
}

/// Opens the answers. A file is gone over once beforehand, so that a wrong letter far down is told
/// before any event; a pipe can only be read once, so there it is told where it is met.
fn open_answers(path: &Path) -> Result<Answers<File>, Complaint> {
    let mut file = open(path)?;
    let kind = file.metadata().map_err(|error| failed(path, &error))?;
    if kind.is_dir() {
        return Err(format!("{}: a folder, not a list of answers", path.display()));
    }
    if kind.is_file() {
        Answers::new(&file).check_all().map_err(|fault| answer_failed(path, fault))?;
        file.rewind().map_err(|error| failed(path, &error))?;
    }
    Ok(Answers::new(file))
}

/// Whether the program goes on after an event.
#[derive(PartialEq)]
enum Next {
    GoOn,
    Stop,
}

/// One reading of one stream.
struct Sitting<'a> {
    stream: BufReader<File>,
    stream_path: &'a Path,
    answers: Answers<File>,
    answers_path: &'a Path,
    body: Option<File>,
    body_path: &'a Path,
    reader: Reader,
    /// Whether a refusal's place is written.
    places: bool,
}

impl Sitting<'_> {
    /// Feeds the stream cut into pieces of these lengths, used in turn, and tells the end.
    fn read_all(mut self, cuts: &[usize]) -> Result<(), Complaint> {
        let mut piece = Vec::with_capacity(files::MOST_PIECE);
        for &cut in cuts.iter().cycle() {
            piece.clear();
            let read = self.stream.by_ref().take(cut as u64).read_to_end(&mut piece);
            read.map_err(|error| failed(self.stream_path, &error))?;
            if self.feed(&piece)? == Next::Stop {
                return Ok(());
            }
            if piece.len() < cut {
                break;
            }
        }
        let event = self.reader.end().map_err(|_| out_of_turn())?;
        self.write(&event)
    }

    /// Feeds a piece, and what is left of it after each event.
    fn feed(&mut self, piece: &[u8]) -> Result<Next, Complaint> {
        let mut rest = piece;
        loop {
            let (taken, event) = self.reader.feed(rest).map_err(|_| out_of_turn())?;
            rest = &rest[taken..];
            let Some(event) = event else { return Ok(Next::GoOn) };
            if self.tell(event)? == Next::Stop {
                return Ok(Next::Stop);
            }
        }
    }

    /// Writes an event and, if it is a question, answers it and writes what the answer gives.
    fn tell(&mut self, event: Event) -> Result<Next, Complaint> {
        self.write(&event)?;
        if event.is_final() {
            return Ok(Next::Stop);
        }
        if !matches!(event, Event::Question(_)) {
            return Ok(Next::GoOn);
        }
        let answer = self.answers.next_answer().map_err(|fault| answer_failed(self.answers_path, fault))?;
        let Some(yes) = answer else { return Ok(Next::Stop) };
        let event = self.reader.answer(yes).map_err(|_| out_of_turn())?;
        self.tell(event)
    }

    /// One line to standard output; a released block goes to the body's file too, and another show is told of on standard error.
    fn write(&mut self, event: &Event) -> Result<(), Complaint> {
        if let (Event::Block { .. }, Some(file)) = (event, &mut self.body) {
            file.write_all(self.reader.block()).map_err(|error| failed(self.body_path, &error))?;
        }
        let line = match event {
            Event::Refused(refusal) if !self.places => Refusal::plain(refusal.number).to_string(),
            _ => event.to_string(),
        };
        writeln!(io::stdout(), "{line}").map_err(|error| failed(Path::new("standard output"), &error))?;
        if let Some(sentence) = self.reader.other_show() {
            eprintln!("ouiread-second: {sentence}");
        }
        Ok(())
    }
}

/// The sitting never calls out of turn; this is here so that a slip would show.
fn out_of_turn() -> Complaint {
    "a call came out of turn".to_string()
}
