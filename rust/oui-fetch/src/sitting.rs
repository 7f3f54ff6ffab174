//! One reading of one stream: what is done with each event, and what is said at the end.

use crate::chain::Hash;
use crate::diagnosis::{self, Diagnosis};
use crate::ends::{self, Sections};
use crate::files::Source;
use crate::growing::Show;
use crate::json;
use crate::last_word;
use crate::options::Options;
use crate::progress::Progress;
use crate::target::Target;
use crate::Complaint;
use ouinet_reader::{Ending, Event, PartRange, Question, Reader, Refusal, Section, SectionKind};
use std::io::{self, Write};

pub struct Sitting<'a> {
    pub options: &'a Options,
    /// With `--any-uri`, the URI that the head gives; empty where it gives none.
    pub taken_uri: Option<Vec<u8>>,
    pub target: Target,
    pub progress: Progress,
    pub blocks: u64,
    pub bytes: u64,
    /// The accepted head.
    head: Vec<u8>,
    /// Which bytes of the show come, if it is a part answer.
    pub range: Option<PartRange>,
    /// The key, and the end of the message, of the last question: of a block that is its hash.
    key: [u8; 32],
    hash: Hash,
    /// Whether the last question was the one about the show's end.
    asks_of_end: bool,
    /// The section that was refused.
    refused: Option<Section>,
    /// What is said of a show that was not asked for.
    other_show: Option<String>,
}

impl<'a> Sitting<'a> {
    pub fn new(options: &'a Options, taken_uri: Option<Vec<u8>>, target: Target, progress: Progress) -> Self {
        Sitting {
            options,
            taken_uri,
            target,
            progress,
            blocks: 0,
            bytes: 0,
            head: Vec::new(),
            range: None,
            key: [0; 32],
            hash: [0; 64],
            asks_of_end: false,
            refused: None,
            other_show: None,
        }
    }

    /// Takes a block where it belongs, then says that it is there.
    pub fn on(&mut self, reader: &Reader, event: &Event) -> Result<(), Complaint> {
        match event {
            Event::Question(question) => self.ask(question),
            Event::Block { offset, bytes } => self.block(*offset, bytes)?,
            _ => (),
        }
        self.refused = reader.refused_section();
        self.other_show = reader.another_show();
        if let Event::HeadAccepted { .. } = event {
            self.head = reader.accepted_head().to_vec();
            self.range = reader.range();
        }
        self.tell(reader, event)?;
        if let Event::HeadAccepted { .. } = event {
            self.target.head(&self.show(reader))?;
        }
        Ok(())
    }

    fn ask(&mut self, question: &Question) {
        // After the head's, only the question about the end is over a text of fields: that about a block begins with the id
        self.asks_of_end = !self.head.is_empty() && question.message.starts_with(b"(");
        self.key = *question.key;
        self.hash = question.message.last_chunk().copied().unwrap_or([0; 64]);
    }

    fn block(&mut self, offset: u64, bytes: &[u8]) -> Result<(), Complaint> {
        self.target.block(offset, bytes, &self.hash)?;
        self.blocks += 1;
        self.bytes += bytes.len() as u64;
        self.progress.show(self.bytes);
        Ok(())
    }

    /// What the accepted head says of its show.
    fn show<'r>(&self, reader: &'r Reader) -> Show<'r> {
        Show {
            uri: reader.uri(),
            id: reader.id().unwrap_or_default(),
            block_size: reader.block_size().unwrap_or(1),
            key: self.key,
            range: self.range,
        }
    }

    /// The line of JSON, where lines are asked for.
    fn tell(&self, reader: &Reader, event: &Event) -> Result<(), Complaint> {
        if !self.options.json {
            return Ok(());
        }
        let mut line = json::members(reader, event);
        if event.is_final() {
            line += &json::last_members(self.taken_uri.is_some(), self.options.goes_on.then(|| self.target.verified()));
        }
        writeln!(io::stdout(), "{{{line}}}").map_err(|error| format!("standard output: {error}"))
    }

    /// How many bytes the stream gives the show: a part answer by its own word, a whole one by its end.
    pub fn length_told(&self, ending: &Ending) -> Option<u64> {
        match ending {
            Ending::Refused(_) => None,
            Ending::Closed { total } | Ending::Complete { total } => {
                Some(self.range.map_or(*total, |range| range.total))
            }
        }
    }

    /// Whether the body has all that the stream gives the show.
    pub fn has_all(&self, ending: &Ending) -> bool {
        self.length_told(ending) == Some(self.target.verified())
    }

    /// Puts the target in order. Where it has all, it can be gone on with no more, unless the show had to be complete and may have more.
    pub fn finish(&mut self, ending: &Ending) -> Result<(), Complaint> {
        let may_go_on =
            self.options.require_complete && self.range.is_none() && matches!(ending, Ending::Closed { .. });
        self.target.finish(self.has_all(ending) && !may_go_on)
    }

    /// What is said at the end.
    pub fn last_word(&self, ending: &Ending, source: &Source) -> String {
        match ending {
            Ending::Complete { .. } => last_word::complete(self, ending),
            Ending::Closed { .. } => last_word::closed(self, ending),
            Ending::Refused(refusal) => last_word::refused(self, *refusal, self.diagnosis(*refusal, source)),
        }
    }

    fn diagnosis(&self, refusal: Refusal, source: &Source) -> Diagnosis {
        let found = refusal.at().zip(self.refused.as_ref()).and_then(|(at, section)| {
            let bytes = source.recent(section.start, section.length)?;
            Some(diagnosis::of(section, bytes, at))
        });
        let in_words = || self.other_show.clone().or_else(|| self.wrong_end(refusal, source));
        found.unwrap_or_else(|| Diagnosis {
            words: in_words().unwrap_or_else(|| refusal.to_string()),
            shown: Vec::new(),
        })
    }

    /// What is said where it is the show's end that is refused.
    fn wrong_end(&self, refusal: Refusal, source: &Source) -> Option<String> {
        if refusal == Refusal::BadSignature && self.asks_of_end {
            return Some(ends::WRONG_SIGNATURE.to_string());
        }
        let section = self.refused.filter(|section| section.kind == SectionKind::Trailer)?;
        let trailer = source.recent(section.start, section.length)?;
        ends::cause(refusal, &Sections { head: &self.head, trailer }, self.bytes)
    }
}
