//! `compare PROGRAM_A PROGRAM_B --seed S --count N [--groups LIST] [--least-places P] [--least-repeated R] [--least-asked A]
//! [--least-longer L] [--least-ends E] [--least-parts T] [--keep DIR] [--no-status-in-a]`: makes cases with the generator, runs both
//! readers on each, and compares standard output and released bytes with each other, and these and the exit status with what the
//! generator expects. Both are given `--where`, so that a refusal's line has the place of a wrong text. It counts the cases in which both
//! refused a text at the same place, those in which both accepted a head with a name in several lines, those in which both refused a
//! head because another URI was asked for, those in which both accepted a head of more bytes or fields than paper 01 allowed, those in
//! which both checked the end of the show, and those in which both accepted the head of a part answer; fewer than P, R, A, L, E or T are
//! a failure. With the last option A is a program that has no exit status of its own: its complaints about a malformed file are held to
//! the same rules, and it must end with 0. Cases that fail are kept in a folder each, under DIR or else under `compare-kept-S` in the
//! folder for temporary files.

mod judge;
mod run;

use judge::{accepts_head, accepts_part, complaints, has_place, is_end_checked, is_other_show};
use run::{Outcome, Workshop};
use std::fs;
use std::path::{Path, PathBuf};
use std::process::ExitCode;
use streams::case::Case;
use streams::sequence::{self, Group, Sequence};

const USAGE: &str =
    "usage: compare PROGRAM_A PROGRAM_B --seed S --count N [--groups LIST] [--least-places P] [--least-repeated R] \
    [--least-asked A] [--least-longer L] [--least-ends E] [--least-parts T] [--keep DIR] [--no-status-in-a]";

fn main() -> ExitCode {
    let words: Vec<String> = std::env::args().skip(1).collect();
    match Settings::parse(&words).and_then(|settings| compare(&settings)) {
        Ok(0) => ExitCode::SUCCESS,
        Ok(_) => ExitCode::FAILURE,
        Err(complaint) => {
            eprintln!("compare: {complaint}");
            ExitCode::from(2)
        }
    }
}

struct Settings {
    programs: [PathBuf; 2],
    seed: u64,
    count: usize,
    groups: Vec<Group>,
    /// So many cases of each kind must be among what is compared.
    least: Counts,
    keep: PathBuf,
    /// Whether each program tells a malformed file by its exit status.
    have_status: [bool; 2],
}

/// Of the cases that passed, those of six kinds.
#[derive(Default)]
struct Counts {
    /// Both refused a text at the same place.
    places: usize,
    /// Both accepted a head in which a name has several lines.
    repeated: usize,
    /// Both refused a head because another URI was asked for.
    asked: usize,
    /// Both accepted a head beyond paper 01's own limits.
    longer: usize,
    /// Both checked the end of the show.
    ends: usize,
    /// Both accepted the head of a part answer.
    parts: usize,
}

impl Counts {
    fn add(&mut self, case: &Case, outcomes: &[Outcome; 2]) {
        self.places += usize::from(outcomes.iter().all(has_place));
        let accepted = outcomes.iter().all(accepts_head);
        self.repeated += usize::from(accepted && case.has_repeated_field());
        self.asked += usize::from(outcomes.iter().all(is_other_show));
        self.longer += usize::from(accepted && case.has_longer_head());
        self.ends += usize::from(outcomes.iter().all(is_end_checked));
        self.parts += usize::from(outcomes.iter().all(accepts_part));
    }

    /// Tells the counts, and gives how many of them are too low.
    fn tell(&self, least: &Counts) -> usize {
        let kinds = [
            ("refusals with a place", self.places, least.places),
            ("accepted heads with a repeated field", self.repeated, least.repeated),
            ("refusals of another show", self.asked, least.asked),
            ("accepted heads of more bytes or fields than before", self.longer, least.longer),
            ("checked ends of shows", self.ends, least.ends),
            ("accepted heads of part answers", self.parts, least.parts),
        ];
        for (what, count, least) in kinds {
            println!("{count} {what} were compared");
            if count < least {
                println!("these are too few: there must be {least} of them");
            }
        }
        kinds.iter().filter(|(_, count, least)| count < least).count()
    }
}

impl Settings {
    fn parse(words: &[String]) -> Result<Self, String> {
        let (mut programs, mut seed, mut count) = (Vec::new(), None, None);
        let (mut groups, mut least) = (sequence::all_groups(), Counts::default());
        let (mut keep, mut have_status) = (None, [true; 2]);
        let mut words = words.iter();
        while let Some(word) = words.next() {
            let mut value = || words.next().ok_or_else(|| format!("{word} needs a value"));
            match word.as_str() {
                "--seed" => seed = Some(number(word, value()?)?),
                "--count" => count = Some(number(word, value()?)? as usize),
                "--groups" => groups = sequence::parse_groups(value()?)?,
                "--least-places" => least.places = number(word, value()?)? as usize,
                "--least-repeated" => least.repeated = number(word, value()?)? as usize,
                "--least-asked" => least.asked = number(word, value()?)? as usize,
                "--least-longer" => least.longer = number(word, value()?)? as usize,
                "--least-ends" => least.ends = number(word, value()?)? as usize,
                "--least-parts" => least.parts = number(word, value()?)? as usize,
                "--keep" => keep = Some(PathBuf::from(value()?)),
                "--no-status-in-a" => have_status[0] = false,
                other if other.starts_with("--") => return Err(format!("no option {other}\n{USAGE}")),
                other => programs.push(program(other)?),
            }
        }
        let programs: [PathBuf; 2] = programs.try_into().map_err(|_| format!("two programs are needed\n{USAGE}"))?;
        let seed = seed.ok_or_else(|| format!("--seed is missing\n{USAGE}"))?;
        Ok(Settings {
            programs,
            seed,
            count: count.ok_or_else(|| format!("--count is missing\n{USAGE}"))?,
            groups,
            least,
            keep: keep.unwrap_or_else(|| std::env::temp_dir().join(format!("compare-kept-{seed}"))),
            have_status,
        })
    }
}

fn number(name: &str, text: &str) -> Result<u64, String> {
    text.parse().map_err(|_| format!("{name} takes a number, not {text:?}"))
}

/// The programs run in the folder of the cases' files, so their paths must be whole.
fn program(path: &str) -> Result<PathBuf, String> {
    fs::canonicalize(path).map_err(|error| format!("{path}: {error}"))
}

/// Runs all cases and gives the number of those that failed.
fn compare(settings: &Settings) -> Result<usize, String> {
    println!("seed {}", settings.seed);
    let workshop = Workshop::new()?;
    let (mut passed, mut failed, mut counts) = (0, 0, Counts::default());
    for (number, case) in Sequence::new(settings.seed, &settings.groups).take(settings.count).enumerate() {
        let outcomes = workshop.run(&case, &settings.programs)?;
        let found = complaints(&case, &outcomes, settings.have_status);
        if found.is_empty() {
            passed += 1;
            counts.add(&case, &outcomes);
            continue;
        }
        failed += 1;
        let folder = settings.keep.join(format!("{number:06}"));
        keep(&case, &outcomes, &found, &folder).map_err(|error| format!("{}: {error}", folder.display()))?;
        println!("case {number} ({}), kept in {}:", case.label, folder.display());
        for line in &found {
            println!("  {line}");
        }
    }
    failed += counts.tell(&settings.least);
    println!("{passed} passed, {failed} failed");
    Ok(failed)
}

/// Keeps the files of a case, what came out and what was wrong with it.
fn keep(case: &Case, outcomes: &[Outcome; 2], found: &[String], folder: &Path) -> std::io::Result<()> {
    fs::create_dir_all(folder)?;
    case.write(folder)?;
    fs::write(folder.join("expected"), case.expected_text())?;
    for (outcome, name) in outcomes.iter().zip(["a", "b"]) {
        fs::write(folder.join(format!("output-{name}")), &outcome.output)?;
        fs::write(folder.join(format!("errors-{name}")), &outcome.errors)?;
        fs::write(folder.join(format!("body-{name}")), &outcome.body)?;
    }
    let pipe = if case.through_pipe { "the stream went through a pipe\n" } else { "" };
    fs::write(folder.join("complaints"), format!("{}\n{pipe}{}\n", case.label, found.join("\n")))
}
