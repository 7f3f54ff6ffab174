//! A case: the files that a reader is given, and what it must say as far as that is known.

use crate::answers;
use crate::cuts;
use crate::head;
use crate::plan::{ring_text, Built, Known};
use crate::rng::Rng;
use second::event::Refusal;
use std::fs;
use std::io;
use std::os::unix::fs::symlink;
use std::path::Path;

/// The names of a case's files.
pub const STREAM: &str = "stream";
pub const RING: &str = "ring";
pub const ANSWERS: &str = "answers";
pub const CUTS: &str = "cuts";
pub const ASKED: &str = "uri";

/// What must come out.
pub enum Expected {
    /// These lines and no others, and these released bytes.
    Exactly {
        lines: Vec<String>,
        body: Vec<u8>,
    },
    /// Not known, but what is released must be a beginning of this: the answers were verified.
    BeginningOf(Vec<u8>),
    /// A malformed, missing or unreadable file: no event, and one line on standard error that names
    /// the file and, where it is given here, the line. The status is 2 in a program that has one.
    Malformed {
        file: &'static str,
        line: Option<usize>,
    },
    /// The words are not as they must be: no event, and the usage as one line on standard error. The status is as above.
    Usage,
    Unknown,
}

impl Expected {
    /// A word for the index: the last line, `malformed`, `usage` or `-`.
    pub fn summary(&self) -> String {
        match self {
            Expected::Exactly { lines, .. } => lines.last().cloned().unwrap_or_else(|| "nothing".to_string()),
            Expected::Malformed { file, .. } => format!("malformed {file}"),
            Expected::Usage => "usage".to_string(),
            Expected::BeginningOf(_) | Expected::Unknown => "-".to_string(),
        }
    }
}

/// Why the bytes of a file cannot be had.
#[derive(Clone, Copy)]
pub enum Lack {
    /// It is named to the reader but not there.
    Missing,
    /// It is a folder.
    Folder,
    /// It can be opened, and its first read fails.
    Unreadable,
}

impl Lack {
    fn put(self, path: &Path) -> io::Result<()> {
        match self {
            Lack::Missing => Ok(()),
            Lack::Folder => fs::create_dir(path),
            // Nothing lies at address 0 of the process that reads it.
            Lack::Unreadable => symlink("/proc/self/mem", path),
        }
    }
}

/// How the file of the URI is named to a reader.
#[derive(Clone, Copy, PartialEq, Eq, Debug)]
pub enum Naming {
    Once,
    NotAtAll,
    Twice,
    WithoutFile,
}

impl Naming {
    /// The words for it. They must be the last ones if the file is left out.
    pub fn words(self) -> &'static [&'static str] {
        match self {
            Naming::Once => &["--uri", ASKED],
            Naming::NotAtAll => &[],
            Naming::Twice => &["--uri", ASKED, "--uri", ASKED],
            Naming::WithoutFile => &["--uri"],
        }
    }
}

pub struct Case {
    pub label: String,
    pub stream: Vec<u8>,
    pub ring: Vec<u8>,
    /// The URI asked for: that of the honest head, unless the case is about another.
    pub uri: Vec<u8>,
    pub naming: Naming,
    pub answers: Vec<u8>,
    pub cuts: Option<Vec<u8>>,
    /// A file whose bytes cannot be had.
    pub lack: Option<(&'static str, Lack)>,
    /// Whether the stream goes through a pipe rather than a file.
    pub through_pipe: bool,
    pub expected: Expected,
}

/// How the questions of a case are answered.
#[derive(Clone, Copy, Debug)]
pub enum Answering {
    AllYes,
    /// So many yes, then a no.
    NoAfter(usize),
    /// So many yes, then nothing.
    OutAfter(usize),
    Verified,
}

/// How many bytes these lines say were released.
fn released(lines: &[String]) -> usize {
    let length = |line: &String| line.strip_prefix("block ")?.split(' ').nth(1)?.parse::<usize>().ok();
    lines.iter().filter_map(length).sum()
}

impl Case {
    /// A case whose all-yes lines are known. Whatever is asked is then signed as it should be, but for an end that is known not to
    /// be, so verified answers must all be yes; this holds the second reader's messages against libsodium.
    pub fn known(label: impl Into<String>, known: Known, answering: Answering, rng: &mut Rng) -> Self {
        let Known { stream, ring, uri, lines: all_yes, body, end_is_signed } = known;
        let questions = all_yes.iter().filter(|line| line.starts_with("question")).count();
        let asks_about_end = all_yes.last().is_some_and(|last| last.starts_with("complete"));
        let list = match answering {
            Answering::AllYes => vec![true; questions + rng.below(3)],
            Answering::NoAfter(count) => [vec![true; count], vec![false]].concat(),
            Answering::OutAfter(count) => vec![true; count],
            Answering::Verified => answers::verified(&stream, &ring, &uri),
        };
        if matches!(answering, Answering::Verified) {
            let mut due = vec![true; questions];
            if asks_about_end {
                due[questions - 1] = end_is_signed;
            }
            assert_eq!(
                list, due,
                "signatures are not verified as they were made: the second reader asks about a wrong message"
            );
        }
        let lines = answers::lines_with(&all_yes, &list);
        let body = body[..released(&lines)].to_vec();
        // The answer about the end is written without drawing, so that cases stay what they were before there was one
        let (others, about_end) = list.split_at(list.len() - usize::from(asks_about_end && list.len() >= questions));
        let mut text = answers::text(others, rng);
        text.extend(about_end.iter().map(|&yes| answers::letter(yes)));
        Case {
            label: label.into(),
            cuts: cuts::any(&stream, rng),
            through_pipe: rng.one_in(16),
            stream,
            ring: ring_text(&ring),
            uri,
            naming: Naming::Once,
            answers: text,
            lack: None,
            expected: Expected::Exactly { lines, body },
        }
    }

    /// A stream whose head is refused at once.
    pub fn refused_head(refusal: Refusal, label: impl Into<String>, built: &Built, rng: &mut Rng) -> Self {
        let known = built.known(built.bytes(), vec![refusal.to_string()]);
        Case::known(label, known, Answering::AllYes, rng)
    }

    /// A whole stream as it was built.
    pub fn whole(label: impl Into<String>, built: &Built, answering: Answering, rng: &mut Rng) -> Self {
        Case::known(label, built.known(built.bytes(), built.lines()), answering, rng)
    }

    /// A stream whose head is signed over another text than it should be: the answer is no.
    pub fn wrongly_signed(label: impl Into<String>, built: &Built, rng: &mut Rng) -> Self {
        Case::wrongly_signed_at(0, label, built, rng)
    }

    /// A stream of which so many questions are signed as they should be, and the next one is not.
    pub fn wrongly_signed_at(count: usize, label: impl Into<String>, built: &Built, rng: &mut Rng) -> Self {
        let known = built.known(built.bytes(), built.lines());
        let answers = answers::verified(&known.stream, &known.ring, &known.uri);
        assert_eq!(answers, [vec![true; count], vec![false]].concat(), "the wrong text is the right one");
        Case::known(label, known, Answering::NoAfter(count), rng)
    }

    /// A case of which only this is known: with verified answers, what is released is a beginning
    /// of the body that was signed.
    pub fn damaged(label: impl Into<String>, stream: Vec<u8>, built: &Built, verified: bool, rng: &mut Rng) -> Self {
        let list = if verified {
            answers::verified(&stream, &built.ring, &built.uri)
        } else {
            vec![true; built.parts.len() + 20]
        };
        let expected = if verified { Expected::BeginningOf(built.body.clone()) } else { Expected::Unknown };
        Case {
            label: label.into(),
            cuts: cuts::any(&stream, rng),
            through_pipe: rng.one_in(16),
            stream,
            ring: ring_text(&built.ring),
            uri: built.uri.clone(),
            naming: Naming::Once,
            answers: answers::text(&list, rng),
            lack: None,
            expected,
        }
    }

    /// The same stream, asked for by another URI than the head's: a head in which nothing is wrong, or only the key, is then refused
    /// with 16.
    pub fn asked_by(mut self, uri: Vec<u8>) -> Self {
        assert_ne!(uri, self.uri, "{}: no other URI", self.label);
        if let Expected::Exactly { lines, body } = &mut self.expected {
            if lines.first().is_some_and(|first| first.starts_with("question") || first == "refused 12") {
                *lines = vec![Refusal::plain(16).to_string()];
                body.clear();
            }
        }
        self.uri = uri;
        self
    }

    /// Whether some name comes in several lines of the stream's head.
    pub fn has_repeated_field(&self) -> bool {
        let names: Vec<&[u8]> = head::line_names(&self.stream).skip(1).collect();
        let is_there_before =
            |number: usize| names[..number].iter().any(|name| name.eq_ignore_ascii_case(names[number]));
        (0..names.len()).any(is_there_before)
    }

    /// See `head::is_longer`.
    pub fn has_longer_head(&self) -> bool {
        head::is_longer(&self.stream)
    }

    /// Writes the files of the case into a folder, and what is expected beside them.
    pub fn write(&self, folder: &Path) -> io::Result<()> {
        for (name, bytes) in self.files() {
            let path = folder.join(name);
            match self.lack {
                Some((file, lack)) if file == name => lack.put(&path)?,
                _ => fs::write(path, bytes)?,
            }
        }
        Ok(())
    }

    /// The files with their names.
    pub fn files(&self) -> Vec<(&'static str, &[u8])> {
        let mut files =
            vec![(STREAM, &self.stream[..]), (RING, &self.ring), (ANSWERS, &self.answers), (ASKED, &self.uri)];
        if let Some(cuts) = &self.cuts {
            files.push((CUTS, cuts));
        }
        files
    }

    /// What is expected, as a text for a reader of the corpus.
    pub fn expected_text(&self) -> String {
        match &self.expected {
            Expected::Exactly { lines, .. } => lines.iter().map(|line| format!("{line}\n")).collect(),
            Expected::Malformed { file, line: Some(line) } => format!("(no event; {file}, line {line})\n"),
            Expected::Malformed { file, line: None } => format!("(no event; {file})\n"),
            Expected::Usage => "(no event; the usage)\n".to_string(),
            Expected::BeginningOf(_) => "(released bytes are a beginning of the signed body)\n".to_string(),
            Expected::Unknown => "(not known)\n".to_string(),
        }
    }
}
