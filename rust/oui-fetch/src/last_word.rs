//! The last word on standard error: what came, whether it is the whole show, and how the body stands.

use crate::diagnosis::Diagnosis;
use crate::ends;
use crate::options::Options;
use crate::sitting::Sitting;
use ouinet_reader::{quoted, Ending, PartRange, Refusal};

pub fn complete(sitting: &Sitting, ending: &Ending) -> String {
    let standing = if sitting.has_all(ending) { String::new() } else { too_much(sitting, ending) };
    format!("complete: {}, the whole show{standing}{}", verified(sitting), any_uri(sitting))
}

pub fn closed(sitting: &Sitting, ending: &Ending) -> String {
    let words = match sitting.range {
        Some(range) => part(sitting, range),
        None if sitting.has_all(ending) => format!("; {}", ends::NOT_CHECKED),
        None => too_much(sitting, ending),
    };
    let failure = if sitting.options.require_complete { ", and that is a failure (--require-complete)" } else { "" };
    format!("closed: {}{words}{failure}{}", verified(sitting), any_uri(sitting))
}

/// A line, and after a wrong text lines that show it.
pub fn refused(sitting: &Sitting, refusal: Refusal, diagnosis: Diagnosis) -> String {
    let before = match sitting.bytes {
        0 => "nothing was verified".to_string(),
        bytes => format!("the {bytes} bytes before were verified"),
    };
    let standing = match (body(sitting.options), sitting.target.verified()) {
        (Some(body), have) if have > 0 => format!("; {body} has {have} verified bytes (oui-fetch --range-for {body})"),
        _ => String::new(),
    };
    let Diagnosis { words, shown } = diagnosis;
    let first = format!("refused {}: {words}; {before}{standing}{}", refusal.number(), any_uri(sitting));
    [vec![first], shown].concat().join("\n")
}

fn verified(sitting: &Sitting) -> String {
    format!("{} bytes in {} blocks, each verified", sitting.bytes, sitting.blocks)
}

/// What the body is called, where it is gone on with.
fn body(options: &Options) -> Option<String> {
    options.body.as_ref().filter(|_| options.goes_on).map(|body| body.display().to_string())
}

/// What there is after a part answer. Its end is never checked, and how long the show is has only the sender's word.
fn part(sitting: &Sitting, PartRange { first, last, total }: PartRange) -> String {
    let have = sitting.target.verified();
    let (name, again) = match body(sitting.options) {
        Some(body) => (format!("{body} has"), format!(" (oui-fetch --range-for {body})")),
        None => ("that is".to_string(), String::new()),
    };
    let standing = match have {
        _ if have < total => format!("{name} {have} of {total} bytes, and {} are missing{again}", total - have),
        _ if have > total => format!("{name} {have} bytes, and the part answer gives the show only {total}"),
        _ => format!("{name} all {total} bytes that the part answer gives the show; {}", ends::PART_NOT_CHECKED),
    };
    format!(": bytes {first} to {last}; {standing}")
}

/// The body goes on behind the end of the stream.
fn too_much(sitting: &Sitting, ending: &Ending) -> String {
    let (have, told) = (sitting.target.verified(), sitting.length_told(ending).unwrap_or(0));
    let name = body(sitting.options).unwrap_or_default();
    format!("; but {name} has {have} bytes, all verified, and the stream gives the show only {told}")
}

/// What is said of the user's choice that any URI will do.
fn any_uri(sitting: &Sitting) -> String {
    match sitting.taken_uri.as_deref() {
        None => String::new(),
        Some(b"") => "; any URI would do (--any-uri)".to_string(),
        Some(uri) => format!("; any URI would do (--any-uri), and the head gives {}", quoted(uri)),
    }
}
