//! A line of bytes as it is shown to a person: printable, and cut around what matters.

use ouinet_reader::printable;
use std::ops::Range;

/// So many columns of a line are shown, if it has more.
const MOST_COLUMNS: usize = 72;
/// So many of them stand before a mark.
const BEFORE_MARK: usize = 30;
/// So many bytes of a name are shown within a sentence.
const MOST_NAME: usize = 40;
const INDENT: &str = "    ";
/// What stands where something is left out.
const CUT: &str = "...";

/// The line, and under it a mark at these bytes of it, of which there must be one at least.
pub fn marked(line: &[u8], mark: Range<usize>) -> [String; 2] {
    let shown: Vec<String> = line.iter().map(|&byte| printable(&[byte], 1)).collect();
    let part = around(&shown, mark.start);
    let before = if part.start > 0 { CUT } else { "" };
    let after = if part.end < shown.len() { CUT } else { "" };
    let blank = before.len() + width(&shown[part.start..mark.start]);
    let under = width(&shown[mark.start..mark.end.min(part.end)]).max(1);
    [
        format!("{INDENT}{before}{}{after}", shown[part].concat()),
        format!("{INDENT}{}{}", " ".repeat(blank), "^".repeat(under)),
    ]
}

/// The beginning of a text, without a mark.
pub fn beginning(text: &[u8]) -> String {
    let [line, _] = marked(text, 0..1.min(text.len()));
    line
}

/// A name within a sentence, cut if it is long.
pub fn short(name: &[u8]) -> String {
    printable(name, MOST_NAME)
}

fn width(shown: &[String]) -> usize {
    shown.iter().map(String::len).sum()
}

/// Which bytes of a line are shown: all, or as many as there is room for, with some before the mark.
fn around(shown: &[String], mark: usize) -> Range<usize> {
    let mut part = mark..mark;
    grow_left(shown, &mut part, BEFORE_MARK);
    while part.end < shown.len() && width(&shown[part.start..=part.end]) <= MOST_COLUMNS {
        part.end += 1;
    }
    grow_left(shown, &mut part, MOST_COLUMNS);
    part
}

/// Takes in bytes before the part while it has no more columns than these.
fn grow_left(shown: &[String], part: &mut Range<usize>, most: usize) {
    while part.start > 0 && width(&shown[part.start - 1..part.end]) <= most {
        part.start -= 1;
    }
}

#[cfg(test)]
mod tests {
    use super::*;

    #[test]
    fn short_lines() {
        assert_eq!(marked(b"a\tb c", 3..4), [r"    a\tb c", "        ^"]);
        assert_eq!(marked(b"a\tb c", 1..2), [r"    a\tb c", "     ^^"]);
        assert_eq!(marked(b"\x1b[2J\x07", 4..5), [r"    \x1b[2J\x07", "           ^^^^"]);
        assert_eq!(marked(b"name: x", 0..4), ["    name: x", "    ^^^^"]);
    }

    /// What is under the mark, and how much is shown.
    fn cut(line: &[u8], at: usize) -> (String, usize) {
        let [text, mark] = marked(line, at..at + 1);
        let start = mark.find('^').expect("a mark");
        (text[start..mark.len()].to_string(), text.len() - INDENT.len())
    }

    #[test]
    fn long_lines() {
        let mut line = b"0123456789".repeat(100);
        for at in 0..line.len() {
            let byte = std::mem::replace(&mut line[at], 7);
            let (under, shown) = cut(&line, at);
            assert_eq!(under, r"\x07");
            assert!((MOST_COLUMNS - 3..=MOST_COLUMNS + 2 * CUT.len()).contains(&shown), "{at}: {shown}");
            line[at] = byte;
        }
        let [text, mark] = marked(&line, 500..501);
        assert_eq!(text, format!("    ...{}012345678901...", "0123456789".repeat(6)));
        assert_eq!(mark.len(), 4 + 3 + 30 + 1);
        let [text, mark] = marked(&line, 999..1000);
        assert_eq!(text, format!("    ...89{}", "0123456789".repeat(7)));
        assert_eq!(mark.len(), text.len());
        let [text, mark] = marked(&line, 3..4);
        assert_eq!(text, format!("    {}01...", "0123456789".repeat(7)));
        assert_eq!(mark, "       ^");
        assert_eq!(marked(&b"\0".repeat(1000), 500..501)[0].len(), 4 + 3 + 72 + 3);
    }

    #[test]
    fn marks_that_do_not_fit() {
        let line = b"n".repeat(200);
        let [text, mark] = marked(&line, 0..150);
        assert_eq!((text.len(), mark.len()), (4 + 72 + 3, 4 + 72));
        assert_eq!(beginning(b""), "    ");
    }
}
