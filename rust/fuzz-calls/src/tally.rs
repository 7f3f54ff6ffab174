//! What the lists have met: how often each word came, and each refusal.

use std::fmt;

#[derive(Default, Clone)]
pub struct Tally {
    pub lists: u64,
    pub calls: u64,
    /// more, question, head, block, closed, refused, complete.
    pub words: [u64; 7],
    /// By the refusal's number.
    pub refusals: [u64; 17],
    /// Refusals that tell where the text went wrong.
    pub places: u64,
    /// Questions about the end of a show.
    pub ends: u64,
    /// Calls whose state or result was too short.
    pub too_short: u64,
    /// Calls on states that no call wrote.
    pub forged: u64,
    /// Values that were handed out and not empty.
    pub values: u64,
    /// Counts of a field's lines that were above 1.
    pub repeated: u64,
    /// Accepted heads of more bytes or fields than before request #108.
    pub longer: u64,
    /// Accepted heads of part answers.
    pub parts: u64,
    /// Part answers that were closed.
    pub closed_parts: u64,
    /// Feeds that were lent another URI when the head had been judged, and were read all the same: it is not looked at then. Those that are
    /// refused with 1 or 2, or are answered that a buffer is too short, show nothing of it and do not count.
    pub late_uris: u64,
}

impl Tally {
    pub fn add(&mut self, other: &Tally) {
        self.lists += other.lists;
        self.calls += other.calls;
        self.too_short += other.too_short;
        self.forged += other.forged;
        self.values += other.values;
        self.repeated += other.repeated;
        self.longer += other.longer;
        self.parts += other.parts;
        self.closed_parts += other.closed_parts;
        self.late_uris += other.late_uris;
        self.places += other.places;
        self.ends += other.ends;
        for (mine, theirs) in self.words.iter_mut().zip(other.words) {
            *mine += theirs;
        }
        for (mine, theirs) in self.refusals.iter_mut().zip(other.refusals) {
            *mine += theirs;
        }
    }
}

impl fmt::Display for Tally {
    fn fmt(&self, out: &mut fmt::Formatter) -> fmt::Result {
        let [more, question, head, block, closed, _, complete] = self.words;
        writeln!(out, "{} lists, {} calls, {} more on forged states", self.lists, self.calls, self.forged)?;
        write!(out, "more {more}, question {question}, {} of them about an end, ", self.ends)?;
        writeln!(out, "head {head}, block {block}, closed {closed}, complete {complete}")?;
        write!(out, "refused")?;
        for number in 1..=16 {
            write!(out, " {number}: {}{}", self.refusals[number], if number < 16 { "," } else { "" })?;
        }
        writeln!(out, "\nrefusals with a place {}", self.places)?;
        write!(out, "buffers too short for any answer {}, values handed out {}, ", self.too_short, self.values)?;
        write!(out, "counts of a repeated field {}, accepted longer heads {}, ", self.repeated, self.longer)?;
        writeln!(out, "other URIs after the head {}", self.late_uris)?;
        write!(out, "accepted heads of part answers {}, closed part answers {}", self.parts, self.closed_parts)
    }
}
