//! A whole stream, from a source of bytes to its last event.

use crate::event::{Event, Question};
use crate::reader::Reader;
use crate::refusal::Refusal;
use crate::ring::Ring;
use std::fmt;
use std::io::{self, Read};

/// So many bytes are read at a time, at most.
const MOST_PIECE: usize = 65_536;

/// How a stream ended.
#[derive(Debug, Clone, Copy, PartialEq, Eq)]
pub enum Ending {
    /// The framing ended well, and nothing says whether the body is complete; see the crate's words on what that means. A part answer
    /// ends so, too.
    Closed {
        /// How many bytes were handed out: the length of the body, or of the part.
        total: u64,
    },
    /// The body is complete.
    Complete {
        /// The length of the body.
        total: u64,
    },
    /// The stream was refused. The blocks handed out before stay good.
    Refused(Refusal),
}

/// Why a stream was not read to its last event.
#[derive(Debug)]
pub enum RunError<E> {
    /// The source failed.
    Read(io::Error),
    /// The caller's handler of events returned this error.
    Stopped(E),
}

impl<E: fmt::Display> fmt::Display for RunError<E> {
    fn fmt(&self, out: &mut fmt::Formatter) -> fmt::Result {
        match self {
            RunError::Read(error) => write!(out, "the stream cannot be read: {error}"),
            RunError::Stopped(error) => error.fmt(out),
        }
    }
}

impl<E: std::error::Error + 'static> std::error::Error for RunError<E> {
    fn source(&self) -> Option<&(dyn std::error::Error + 'static)> {
        match self {
            RunError::Read(error) => Some(error),
            RunError::Stopped(error) => Some(error),
        }
    }
}

/// Reads a stream to its last event, or to the end of the source.
///
/// `ring` and `uri` say whom to trust and which show was asked for; see [`Reader::new`]. `verify` answers each question: whether the
/// signature over the message belongs to the key. `on` is called for every event in order, questions included (each before
/// `verify`), with the reader beside it for [`Reader::value`], [`Reader::refused_section`] and [`Reader::another_show`]. An error of
/// `on` ends the run. No byte behind the last event is looked at, though the source may have given some.
pub fn run<E>(
    mut source: impl Read,
    ring: Ring,
    uri: impl Into<Vec<u8>>,
    verify: impl FnMut(&Question<'_>) -> bool,
    on: impl FnMut(&Reader, &Event<'_>) -> Result<(), E>,
) -> Result<Ending, RunError<E>> {
    let mut sitting = Sitting { reader: Reader::new(ring, uri), verify, on };
    let mut buffer = vec![0; MOST_PIECE];
    loop {
        let count = read_some(&mut source, &mut buffer).map_err(RunError::Read)?;
        let ending = match count {
            0 => sitting.end(),
            _ => sitting.piece(&buffer[..count]),
        };
        if let Some(ending) = ending.map_err(RunError::Stopped)? {
            return Ok(ending);
        }
    }
}

/// Reads at least one byte, or 0 at the end of the source.
fn read_some(source: &mut impl Read, buffer: &mut [u8]) -> io::Result<usize> {
    loop {
        match source.read(buffer) {
            Err(error) if error.kind() == io::ErrorKind::Interrupted => (),
            other => return other,
        }
    }
}

/// Every call below comes in its turn, so the reader never says that one does not.
const IN_TURN: &str = "each call comes in its turn";

struct Sitting<V, O> {
    reader: Reader,
    verify: V,
    on: O,
}

impl<V, O, E> Sitting<V, O>
where
    V: FnMut(&Question<'_>) -> bool,
    O: FnMut(&Reader, &Event<'_>) -> Result<(), E>,
{
    /// Feeds a piece, and what is left of it after each event.
    fn piece(&mut self, piece: &[u8]) -> Result<Option<Ending>, E> {
        let mut rest = piece;
        while !rest.is_empty() {
            let taken = self.reader.feed(rest).expect(IN_TURN).taken;
            rest = &rest[taken..];
            if let Some(ending) = self.tell()? {
                return Ok(Some(ending));
            }
        }
        Ok(None)
    }

    fn end(&mut self) -> Result<Option<Ending>, E> {
        self.reader.end().expect(IN_TURN);
        self.tell()
    }

    /// Tells the last call's event, if it had one. A question is answered, and what the answer gives is told too.
    fn tell(&mut self) -> Result<Option<Ending>, E> {
        while let Some(event) = self.reader.event().expect(IN_TURN) {
            (self.on)(&self.reader, &event)?;
            match event {
                Event::Question(question) => {
                    let good = (self.verify)(&question);
                    self.reader.answer(good).expect(IN_TURN);
                }
                Event::HeadAccepted { .. } | Event::Block { .. } => break,
                Event::Closed { total } => return Ok(Some(Ending::Closed { total })),
                Event::Complete { total } => return Ok(Some(Ending::Complete { total })),
                Event::Refused(refusal) => return Ok(Some(Ending::Refused(refusal))),
            }
        }
        Ok(None)
    }
}
