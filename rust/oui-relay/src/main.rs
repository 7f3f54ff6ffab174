//! `oui-relay`: passes standard input on to standard output in small pieces cut at random, as a bad network would, and
//! harms the stream if it is told to. See `USAGE`.

#![forbid(unsafe_code)]

use std::io::{self, Read, Write};
use std::process::ExitCode;
use std::thread;
use std::time::Duration;
use streams::options::Options;
use streams::rng::Rng;

const USAGE: &str = "\
usage: oui-relay [--seed S] [--most N] [--pause MS] [--change PLACE] [--stop-after BYTES]
  passes standard input on to standard output in pieces of 1 to N bytes (1400 unless told otherwise), each written by
  itself; the same seed cuts in the same places
  --pause MS          waits so many milliseconds after each piece
  --change PLACE      changes the byte at that place, counted from 0, in one bit
  --stop-after BYTES  passes on no more than so many bytes";

fn main() -> ExitCode {
    let words: Vec<String> = std::env::args().skip(1).collect();
    if words.iter().any(|word| word == "--help" || word == "-h") {
        println!("{USAGE}");
        return ExitCode::SUCCESS;
    }
    match Relay::parse(&words).and_then(Relay::run) {
        Ok(()) => ExitCode::SUCCESS,
        Err(complaint) => {
            eprintln!("oui-relay: {complaint}");
            ExitCode::from(2)
        }
    }
}

struct Relay {
    rng: Rng,
    most: usize,
    pause: Duration,
    change: Option<u64>,
    /// How many bytes may still be passed on.
    left: u64,
    place: u64,
}

impl Relay {
    fn parse(words: &[String]) -> Result<Self, String> {
        let mut options = Options::parse(words, USAGE)?;
        let relay = Relay {
            rng: Rng::new(options.number("--seed")?.unwrap_or(1)),
            most: options.number("--most")?.unwrap_or(1400).clamp(1, 1 << 20) as usize,
            pause: Duration::from_millis(options.number("--pause")?.unwrap_or(0)),
            change: options.number("--change")?,
            left: options.number("--stop-after")?.unwrap_or(u64::MAX),
            place: 0,
        };
        options.done()?;
        Ok(relay)
    }

    fn run(mut self) -> Result<(), String> {
        let mut input = io::stdin().lock();
        // Standard output as it is would gather bytes up to a line feed; what is written to the file itself goes out at once.
        let mut output = unbuffered_output().map_err(|error| format!("standard output: {error}"))?;
        let mut piece = Vec::with_capacity(self.most);
        loop {
            let length = (self.rng.between(1, self.most) as u64).min(self.left);
            piece.clear();
            let read = input.by_ref().take(length).read_to_end(&mut piece);
            read.map_err(|error| format!("standard input: {error}"))?;
            if piece.is_empty() {
                return Ok(());
            }
            self.harm(&mut piece);
            match output.write_all(&piece) {
                // A reader that has seen enough closes the pipe; that is no fault
                Err(error) if error.kind() == io::ErrorKind::BrokenPipe => return Ok(()),
                other => other.map_err(|error| format!("standard output: {error}"))?,
            }
            self.left -= piece.len() as u64;
            thread::sleep(self.pause);
        }
    }

    /// Changes the byte that is to be changed, if the piece has it.
    fn harm(&mut self, piece: &mut [u8]) {
        let start = self.place;
        self.place += piece.len() as u64;
        let index = self.change.and_then(|place| place.checked_sub(start));
        if let Some(byte) = index.and_then(|index| piece.get_mut(usize::try_from(index).ok()?)) {
            *byte ^= 1;
        }
    }
}

/// A second handle of standard output, without its buffer.
fn unbuffered_output() -> io::Result<std::fs::File> {
    use std::os::fd::AsFd;
    Ok(io::stdout().as_fd().try_clone_to_owned()?.into())
}
