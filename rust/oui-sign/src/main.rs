//! `oui-sign`: makes keys, and signed streams from any file and parts of them, for tests and trials. See `USAGE`.

#![forbid(unsafe_code)]

mod files;

use files::{failed, is_same, Files};
use oui_sign::ends;
use oui_sign::key::{self, Span};
use oui_sign::part::{self, Part, Wanted};
use oui_sign::show::{self, Fault, Show};
use std::fs::File;
use std::io::{self, Seek, SeekFrom, Write};
use std::path::Path;
use std::process::ExitCode;
use streams::options::Options;

const USAGE: &str = "\
usage:
  oui-sign key KEYFILE [--first SECOND] [--last SECOND]
      makes a new Ed25519 key, keeps it in KEYFILE, and prints the line that a key ring needs to trust it
  oui-sign ring KEYFILE [--first SECOND] [--last SECOND]
      prints that line for a key that is there
  oui-sign sign KEYFILE [FILE] --uri URI [-o STREAM] [--block-size N] [--type TYPE] [--id ID] [--ts SECOND]
                [--ends head|trailer|none] [--header 'NAME: VALUE']..
      writes FILE as a signed stream (version 4), from standard input and to standard output unless told otherwise
  oui-sign part [STREAM] --from BYTE [--to BYTE] [-o PART]
      writes a part of a signed stream that is there, for whoever has the beginning of the show; no key is needed for that

A line of a ring trusts the key from the first to the last second; these are 0 and 4102444800 (the year 2100) unless told
otherwise. A block has 65536 bytes, the time is now, the id is drawn at random and the type is application/octet-stream unless told
otherwise. The URI is what the show is asked for by, byte for byte, so each show needs one of its own; it is not empty, has no blanks
at its ends and no control characters.
The stream says where the show ends: Digest, X-Ouinet-Data-Size and X-Ouinet-Sig1 have the SHA-256 and the length of the body, signed, in
the trailer unless told otherwise. With --ends head they stand in the head; FILE, which may not be a pipe then, is read twice for that. With
--ends none nobody can tell by the stream whether the show is complete.
Each --header is a further field of the head, and is signed; a name may come several times. Content-Type is set by --type.
A name that begins X-Ouinet- or is Digest, Content-Length or Transfer-Encoding cannot be given.
KEYFILE is secret: whoever has it signs in your name.
A part is an answer of status 206: the blocks that hold the bytes from --from to --to, or to the show's end, counted from 0. Its head and all its
signatures are those of STREAM, which must be whole and is verified; Content-Range and X-Ouinet-HTTP-Status are added to the head, and the first
chunk line has the hash of the block before. STREAM is read twice, so it may not be a pipe.";

fn main() -> ExitCode {
    let words: Vec<String> = match std::env::args_os().skip(1).map(|word| word.into_string()).collect() {
        Ok(words) => words,
        Err(word) => {
            eprintln!("oui-sign: {}: no UTF-8", word.to_string_lossy());
            return ExitCode::from(2);
        }
    };
    if words.iter().any(|word| word == "--help" || word == "-h") {
        println!("{USAGE}");
        return ExitCode::SUCCESS;
    }
    match run(&words) {
        Ok(()) => ExitCode::SUCCESS,
        Err(complaint) => {
            eprintln!("oui-sign: {complaint}");
            ExitCode::from(2)
        }
    }
}

fn run(words: &[String]) -> Result<(), String> {
    let (command, rest) = words.split_first().ok_or(USAGE)?;
    let mut options = Options::parse(rest, USAGE)?;
    match command.as_str() {
        "key" | "ring" => {
            let span = Span::from(&mut options)?;
            let path = options.plain("KEYFILE")?;
            options.done()?;
            let path = Path::new(&path);
            let signer = if command == "key" { key::make(path)? } else { key::load(path)? };
            say(&span.ring_line(&signer))
        }
        "sign" => {
            let show = Show::from(&mut options)?;
            let out = options.named("-o");
            let key_path = options.plain("KEYFILE")?;
            let source = options.next_plain();
            options.done()?;
            let signer = key::load(Path::new(&key_path))?;
            if out.as_deref().is_some_and(|path| File::open(&key_path).is_ok_and(|key| is_same(path, &key))) {
                return Err(format!("{key_path}: the stream would be written over its own key"));
            }
            sign(show, signer, Files::open(source.as_deref(), out.as_deref())?)
        }
        "part" => {
            let wanted = Wanted::from(&mut options)?;
            let out = options.named("-o");
            let source = options.next_plain();
            options.done()?;
            cut(&wanted, Files::open(source.as_deref(), out.as_deref())?)
        }
        other => Err(format!("no command {other:?}\n{USAGE}")),
    }
}

fn say(line: &str) -> Result<(), String> {
    writeln!(io::stdout(), "{line}").map_err(|error| failed("standard output", error))
}

/// The stream of a file. The source is read for the head, if need be, before the target is made.
fn sign(show: Show, signer: sodium::Signer, files: Files) -> Result<(), String> {
    let mut stream = show.stream(signer)?;
    if stream.wants_sum() {
        stream.set_sum(sum_of(&files)?)?;
    }
    let out = files.output()?;
    match stream.write(&files.input, out) {
        Ok(()) => Ok(()),
        Err(fault @ Fault::Write(_)) => unless_closed(fault, &files),
        Err(fault) => Err(format!("{}; the stream was left without its end", complaint(fault, &files))),
    }
}

/// A reader that has seen enough closes the pipe; that is no fault.
fn unless_closed(fault: Fault, files: &Files) -> Result<(), String> {
    match fault {
        Fault::Write(error) if error.kind() == io::ErrorKind::BrokenPipe => Ok(()),
        fault => Err(complaint(fault, files)),
    }
}

/// What a body sums up to; it can be read again from where it started.
fn sum_of(files: &Files) -> Result<ends::Sum, String> {
    let name = files.source();
    let once = |_| {
        format!("{name}: with --ends head the body is read twice, and this can be read only once; put it into a file")
    };
    let mut input = &files.input;
    let start = input.stream_position().map_err(once)?;
    let sum = show::sum_of(input).map_err(|fault| complaint(fault, files))?;
    input.seek(SeekFrom::Start(start)).map_err(once)?;
    Ok(sum)
}

/// What went wrong, and with which of the two files.
fn complaint(fault: Fault, files: &Files) -> String {
    let source = files.source();
    match fault {
        Fault::Read(error) => failed(source, error),
        Fault::Write(error) => failed(files.target(), error),
        Fault::TooLong => format!("{source}: a body has at most {} bytes", show::MOST_BODY),
        Fault::Changed => format!("{source}: the file has changed since it was read for the head"),
    }
}

/// A part of a stream. All of the stream is read before the target is made.
fn cut(wanted: &Wanted, files: Files) -> Result<(), String> {
    let source = files.source();
    let told = |fault: part::Fault| match fault {
        part::Fault::Read(error) => failed(source, error),
        part::Fault::Write(error) => failed(files.target(), error),
        part::Fault::Once => {
            format!("{source}: the stream is read twice, and this can be read only once; put it into a file")
        }
        part::Fault::Stream(words) => format!("{source}: {words}"),
    };
    let part = Part::survey(&mut &files.input, wanted).map_err(told)?;
    let out = files.output()?;
    match part.write(&files.input, out) {
        // As with a whole stream
        Err(part::Fault::Write(error)) if error.kind() == io::ErrorKind::BrokenPipe => Ok(()),
        other => other.map_err(told),
    }
}
