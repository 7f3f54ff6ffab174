//! What is wrong with the outcomes of a case: against each other and against what is expected.

use crate::run::Outcome;
use streams::case::{Case, Expected};

/// How the line about another show begins.
const OTHER_SHOW: &str = "this is another show: ";
/// It never has more bytes.
const MOST_LINE: usize = 1000;
/// Two URIs of no more bytes are shown whole in it.
const MOST_WHOLE: usize = 100;

/// All complaints about a case, one line each. None means that it passed.
pub fn complaints(case: &Case, outcomes: &[Outcome; 2], have_status: [bool; 2]) -> Vec<String> {
    let mut found = differences(&outcomes[0], &outcomes[1]);
    for ((outcome, name), has_status) in outcomes.iter().zip(["A", "B"]).zip(have_status) {
        let mut own = against_status(due_status(case, has_status), outcome);
        own.extend(against_expected(case, outcome));
        own.extend(against_errors(case, outcome));
        found.extend(own.into_iter().map(|what| format!("{name}: {what}")));
    }
    found
}

/// Whether it ends in a refusal that tells where the text went wrong.
pub fn has_place(outcome: &Outcome) -> bool {
    let line = last_line(outcome);
    let mut words = line.split(' ');
    let refused = words.next() == Some("refused") && matches!(words.next(), Some("3" | "6"));
    refused && words.next() == Some("at") && words.next().is_some_and(|place| place.parse::<u64>().is_ok())
}

/// Whether it is refused because another URI was asked for.
pub fn is_other_show(outcome: &Outcome) -> bool {
    outcome.output == b"refused 16\n"
}

/// Whether what the stream says about its end was checked: found right, or refused for one of the faults that nothing else has.
pub fn is_end_checked(outcome: &Outcome) -> bool {
    let line = last_line(outcome);
    line.starts_with("complete ") || ["refused 13", "refused 14", "refused 15"].contains(&line.as_str())
}

/// Whether the head was accepted.
pub fn accepts_head(outcome: &Outcome) -> bool {
    outcome.output.split(|&byte| byte == b'\n').any(|line| line.starts_with(b"head "))
}

/// Whether the head of a part answer was accepted.
pub fn accepts_part(outcome: &Outcome) -> bool {
    outcome.output.split(|&byte| byte == b'\n').any(|line| line == b"head 206")
}

/// A program without an exit status of its own ends with 0 whatever it was given.
fn due_status(case: &Case, has_status: bool) -> i32 {
    match case.expected {
        Expected::Malformed { .. } | Expected::Usage if has_status => 2,
        _ => 0,
    }
}

fn differences(a: &Outcome, b: &Outcome) -> Vec<String> {
    let mut found = Vec::new();
    if a.output != b.output {
        found.push(format!("A ends with line {:?}, B with {:?}", last_line(a), last_line(b)));
    }
    if a.body != b.body {
        found.push(format!("A released {} bytes, B {}, and they differ", a.body.len(), b.body.len()));
    }
    if other_show(a) != other_show(b) {
        found.push(format!("A says {:.400?} of another show, B {:.400?}", other_show(a), other_show(b)));
    }
    found
}

/// What is said on standard error of another show, from these words on: the program's name may stand before them.
fn other_show(outcome: &Outcome) -> Option<String> {
    let text = String::from_utf8_lossy(&outcome.errors).into_owned();
    text.find(OTHER_SHOW).map(|start| text[start..].to_string())
}

fn against_expected(case: &Case, outcome: &Outcome) -> Vec<String> {
    match &case.expected {
        Expected::Exactly { lines, body } => {
            let body = case.cuts.as_ref().map(|_| &body[..]);
            against_lines(lines, body, outcome)
        }
        Expected::BeginningOf(body) if !body.starts_with(&outcome.body) => {
            vec!["released bytes that were not signed so".to_string()]
        }
        Expected::Malformed { file, line } => against_malformed(file, *line, outcome),
        Expected::Usage => against_usage(outcome),
        Expected::BeginningOf(_) | Expected::Unknown => Vec::new(),
    }
}

/// Where the files are good, another show is told of in one line on standard error, and nothing else is said there.
fn against_errors(case: &Case, outcome: &Outcome) -> Vec<String> {
    if matches!(case.expected, Expected::Malformed { .. } | Expected::Usage) {
        return Vec::new();
    }
    let text = String::from_utf8_lossy(&outcome.errors).into_owned();
    let is_right =
        if is_other_show(outcome) { names_other_show(&case.uri, &case.stream, &text) } else { text.is_empty() };
    if is_right {
        Vec::new()
    } else {
        vec![format!("says {text:.400?} on standard error")]
    }
}

/// Whether this is one line about another show, and all of it printable. What it shows of the two URIs differs; where both are short, the
/// one that is plain text stands there as it is.
fn names_other_show(asked: &[u8], stream: &[u8], text: &str) -> bool {
    let Some([asked_shown, got_shown]) = shown_uris(text) else { return false };
    let got = head_uri(stream);
    let are_short = asked.len().max(got.len()) <= MOST_WHOLE;
    let is_plain = |byte: &u8| (32..127).contains(byte) && !b"\\`".contains(byte);
    let is_right = |uri: &[u8], shown: &str| !are_short || !uri.iter().all(is_plain) || shown.as_bytes() == uri;
    asked_shown != got_shown && is_right(asked, asked_shown) && is_right(got, got_shown)
}

/// What the line shows of the URI asked for and of the one that came: a backtick stands at their ends and nowhere in them.
fn shown_uris(text: &str) -> Option<[&str; 2]> {
    let line = text.strip_suffix('\n')?;
    let is_printable = line.bytes().all(|byte| (32..127).contains(&byte));
    if !is_printable || line.len() > MOST_LINE {
        return None;
    }
    let parts: Vec<&str> = line[line.find(OTHER_SHOW)? + OTHER_SHOW.len()..].split('`').collect();
    match parts[..] {
        ["asked for ", asked, ", got ", got, ""] => Some([asked, got]),
        _ => None,
    }
}

/// The URI in a stream's head, which has one line of that name. It is looked up here and not by the second reader, which is one of the two
/// that are judged.
fn head_uri(stream: &[u8]) -> &[u8] {
    let name = b"X-Ouinet-URI:";
    let mut lines = stream.split(|&byte| byte == b'\n');
    let found = lines.find(|line| line.get(..name.len()).is_some_and(|front| front.eq_ignore_ascii_case(name)));
    found.map_or(b"", |line| line[name.len()..].trim_ascii())
}

fn against_status(expected: i32, outcome: &Outcome) -> Vec<String> {
    if outcome.status == Some(expected) {
        Vec::new()
    } else {
        vec![format!("ends with {}, expected status {expected}", status(outcome))]
    }
}

/// The body is compared only where a body file was asked for.
fn against_lines(lines: &[String], body: Option<&[u8]>, outcome: &Outcome) -> Vec<String> {
    let mut found = Vec::new();
    let expected: String = lines.iter().map(|line| format!("{line}\n")).collect();
    if outcome.output != expected.as_bytes() {
        let text = String::from_utf8_lossy(&outcome.output).into_owned();
        let same = text.lines().zip(lines).take_while(|(got, wanted)| got == wanted).count();
        let got = text.lines().nth(same).unwrap_or("(nothing)");
        let wanted = lines.get(same).map_or("(nothing)", |line| line);
        found.push(format!("line {} is {got:?}, expected {wanted:?}", same + 1));
    }
    if body.is_some_and(|body| outcome.body != body) {
        found.push(format!("released {} bytes that are not the expected ones", outcome.body.len()));
    }
    found
}

/// The usage as one line, and no event.
fn against_usage(outcome: &Outcome) -> Vec<String> {
    let text = String::from_utf8_lossy(&outcome.errors).into_owned();
    let is_usage = text.lines().count() == 1 && text.contains("usage: ");
    if is_usage && outcome.output.is_empty() && outcome.body.is_empty() {
        Vec::new()
    } else {
        vec![format!("does not say its usage alone: {text:?}")]
    }
}

/// A complaint reads `FILE: line N: ..`, or `FILE: ..` where no line is to blame; a program's own
/// name may stand before it.
fn against_malformed(file: &str, line: Option<usize>, outcome: &Outcome) -> Vec<String> {
    let mut found = Vec::new();
    if !outcome.output.is_empty() {
        found.push("wrote an event in spite of a malformed file".to_string());
    }
    if !outcome.body.is_empty() {
        found.push("released bytes in spite of a malformed file".to_string());
    }
    let text = String::from_utf8_lossy(&outcome.errors).into_owned();
    if text.lines().count() != 1 {
        found.push(format!("wrote {} lines to standard error, expected one", text.lines().count()));
    }
    let mut parts = text.split(": ").skip_while(|part| *part != file);
    if parts.next().is_none() {
        found.push(format!("does not name the file {file}: {text:?}"));
    }
    let named = parts.next().and_then(|part| part.strip_prefix("line ")?.parse().ok());
    if line.is_some() && named != line {
        found.push(format!("does not name line {}: {text:?}", line.unwrap_or(0)));
    }
    found
}

fn status(outcome: &Outcome) -> String {
    match outcome.status {
        Some(code) => format!("status {code}"),
        None => "no status of its own".to_string(),
    }
}

fn last_line(outcome: &Outcome) -> String {
    let text = String::from_utf8_lossy(&outcome.output).into_owned();
    text.lines().last().unwrap_or("").to_string()
}

#[cfg(test)]
mod tests {
    use super::*;

    const STREAM: &[u8] =
        b"HTTP/1.1 200 OK\r\nX-Ouinet-URI2: a\r\nx-ouinet-URI:\t b \r\nA: b\r\n\r\nX-Ouinet-URI: c\r\n";

    fn said(output: &str) -> Outcome {
        Outcome { status: Some(0), output: output.as_bytes().to_vec(), errors: Vec::new(), body: Vec::new() }
    }

    #[test]
    fn ends_that_were_checked() {
        for output in ["question 303\ncomplete 12\n", "complete 0\n", "refused 13\n", "refused 14\n", "refused 15\n"] {
            assert!(is_end_checked(&said(output)), "{output}");
        }
        for output in
            ["", "closed 12\n", "question 303\n", "refused 10\n", "refused 12\n", "refused 1\n", "refused 16\n"]
        {
            assert!(!is_end_checked(&said(output)), "{output}");
        }
    }

    #[test]
    fn accepted_heads() {
        for (output, is_accepted, is_part) in [
            ("question 219\nhead 206\nquestion 83\n", true, true),
            ("question 219\nhead 200\nquestion 83\n", true, false),
            ("question 219\nhead 2060\n", true, false),
            ("question 206\nrefused 10\n", false, false),
            ("block 206 5\nclosed 206\n", false, false),
            ("", false, false),
        ] {
            let said = said(output);
            assert_eq!((accepts_head(&said), accepts_part(&said)), (is_accepted, is_part), "{output}");
        }
    }

    #[test]
    fn lines_about_another_show() {
        assert_eq!(head_uri(STREAM), b"b");
        let line = |asked: &str, got: &str| format!("name: {OTHER_SHOW}asked for `{asked}`, got `{got}`\n");
        assert!(names_other_show(b"a b", STREAM, &line("a b", "b")));
        assert!(names_other_show(b"", STREAM, &line("", "b")));
        assert!(names_other_show(b"a\\", STREAM, &line(r"a\\", "b")));
        for (asked, got) in [("a", "b"), ("a b", "c"), ("a b", "a b"), ("...a b", "...b"), ("a b", "")] {
            assert!(!names_other_show(b"a b", STREAM, &line(asked, got)), "{asked}, {got}");
        }
        assert!(!names_other_show(b"\n", STREAM, &line("b", "b")));
        // Of long ones it is not known here what is shown, but that it differs
        let long = "x".repeat(101);
        assert!(names_other_show(long.as_bytes(), STREAM, &line("...x", "...")));
        assert!(!names_other_show(long.as_bytes(), STREAM, &line("...", "...")));
    }

    #[test]
    fn lines_that_are_none() {
        let good = format!("{OTHER_SHOW}asked for `a`, got `b`\n");
        assert!(names_other_show(b"a", STREAM, &good));
        for wrong in [
            good.replace('\n', ""),
            good.repeat(2),
            good.replace(OTHER_SHOW, ""),
            good.replace("`b`", "`b`."),
            good.replace("`b`", "`b``"),
            good.replace("`b`", "b"),
            good.replace("this", "\u{1b}this"),
            good.replace("`a`", &format!("`{}`", "a".repeat(1000))),
            String::new(),
        ] {
            assert!(!names_other_show(b"a", STREAM, &wrong), "{wrong:?}");
        }
    }
}
