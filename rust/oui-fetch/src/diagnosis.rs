//! What is said of a section whose text or length is refused: the cause in words with its offset in the stream, and the line
//! that is at fault with a mark under the byte. The bytes are those of the sender and not verified, so what is shown of them
//! is printable ASCII, and all else is escaped.

use crate::excerpt;
use crate::files::MOST_SECTION;
use ouinet_reader::raw::FIELD_LIMIT;
use ouinet_reader::{Section, SectionKind};
use std::ops::Range;

pub struct Diagnosis {
    /// The cause.
    pub words: String,
    /// The lines to show under it.
    pub shown: Vec<String>,
}

/// The diagnosis of a section with its bytes, refused at this place. A place inside the section is where its text goes wrong. One
/// at its end has another cause, which the bytes tell: it has no end, or else too many fields, or one twice that may come once.
pub fn of(section: &Section, bytes: &[u8], at: u64) -> Diagnosis {
    match usize::try_from(at) {
        Ok(at) if at < bytes.len() => wrong_text(section, bytes, at),
        _ if section.kind == SectionKind::Head && bytes.ends_with(b"\r\n\r\n") => wrong_fields(bytes),
        _ => no_end(section, bytes),
    }
}

fn wrong_text(section: &Section, bytes: &[u8], at: usize) -> Diagnosis {
    let line = Line::around(bytes, at);
    let offset = section.start + at as u64;
    let place = format!("at offset {offset} of the stream");
    let in_lines = format!("{place} (line {}, column {})", line.number, at - line.range.start + 1);
    let words = match section.kind {
        SectionKind::Head => format!("the text of the head goes wrong {in_lines}"),
        SectionKind::Trailer => format!("the text of the trailer goes wrong {in_lines}"),
        SectionKind::ChunkLine => format!("the text of a chunk line goes wrong {place}"),
        SectionKind::DataEnd => format!("a chunk's data is not followed by CR LF, {place}"),
    };
    let shown = excerpt::marked(&bytes[line.range.clone()], at - line.range.start..at - line.range.start + 1);
    Diagnosis { words, shown: shown.to_vec() }
}

fn no_end(section: &Section, bytes: &[u8]) -> Diagnosis {
    let start = section.start;
    let most = with_comma(MOST_SECTION);
    let words = match section.kind {
        SectionKind::Head => format!("the head has no end within {most} bytes"),
        SectionKind::Trailer => {
            format!("the trailer, from offset {start} of the stream, has no end within {most} bytes")
        }
        _ => format!("the chunk line at offset {start} of the stream has no end within 128 bytes"),
    };
    Diagnosis { words, shown: vec![excerpt::beginning(bytes)] }
}

/// A number of four to six digits, with a comma before the last three.
fn with_comma(number: usize) -> String {
    format!("{},{:03}", number / 1000, number % 1000)
}

/// A head of good text.
fn wrong_fields(head: &[u8]) -> Diagnosis {
    let lines = Line::all(head);
    // Neither the status line nor the empty line at the end is a field
    let fields = &lines[1..lines.len() - 1];
    if fields.len() > FIELD_LIMIT {
        let words = format!("the head has {} fields, and {FIELD_LIMIT} are the most", fields.len());
        return Diagnosis { words, shown: Vec::new() };
    }
    let Some((first, second)) = doubled(head, fields) else {
        let words = "the head has too many fields, or one twice that may come only once".to_string();
        return Diagnosis { words, shown: Vec::new() };
    };
    let line = &head[second.range.clone()];
    let name = name(line);
    let shown_name = excerpt::short(name);
    let words = format!(
        "the head has {shown_name} twice, in lines {} and {}, and may have it only once",
        first.number, second.number
    );
    Diagnosis { words, shown: excerpt::marked(line, 0..name.len()).to_vec() }
}

/// The first field that an earlier one forbids, and that one before it: they have one name, and it may come only once.
fn doubled<'a>(head: &[u8], fields: &'a [Line]) -> Option<(&'a Line, &'a Line)> {
    let name = |line: &Line| name(&head[line.range.clone()]);
    fields.iter().enumerate().filter(|(_, second)| is_single(name(second))).find_map(|(number, second)| {
        let first = fields[..number].iter().find(|first| name(first).eq_ignore_ascii_case(name(second)))?;
        Some((first, second))
    })
}

/// Whether a name may come only once; all others may be repeated.
fn is_single(name: &[u8]) -> bool {
    let name = name.to_ascii_lowercase();
    name.starts_with(b"x-ouinet-") || name == b"content-length" || name == b"transfer-encoding"
}

/// What stands before a line's colon.
fn name(line: &[u8]) -> &[u8] {
    line.split(|&byte| byte == b':').next().unwrap_or(line)
}

/// A line of a section, with its CR LF if it has one.
struct Line {
    /// Counted from 1.
    number: usize,
    range: Range<usize>,
}

impl Line {
    fn all(bytes: &[u8]) -> Vec<Line> {
        let mut lines = Vec::new();
        let mut start = 0;
        while start < bytes.len() {
            let end = bytes[start..].windows(2).position(|two| two == b"\r\n").map_or(bytes.len(), |at| start + at + 2);
            lines.push(Line { number: lines.len() + 1, range: start..end });
            start = end;
        }
        lines
    }

    /// The line that has the byte at this place.
    fn around(bytes: &[u8], at: usize) -> Line {
        let found = Line::all(bytes).into_iter().find(|line| line.range.contains(&at));
        found.unwrap_or(Line { number: 1, range: 0..bytes.len() })
    }
}

#[cfg(test)]
mod tests {
    use super::*;

    fn section(kind: SectionKind, start: u64, bytes: &[u8]) -> Section {
        Section { kind, start, length: bytes.len() as u64 }
    }

    fn check(kind: SectionKind, start: u64, bytes: &[u8], at: u64, words: &str, shown: &[&str]) {
        let found = of(&section(kind, start, bytes), bytes, at);
        assert_eq!(found.words, words);
        assert_eq!(found.shown, shown);
    }

    #[test]
    fn wrong_texts() {
        check(
            SectionKind::Head,
            0,
            b"HTTP/1.1 200 OK\r\nDate\0: now\r\n\r\n",
            21,
            "the text of the head goes wrong at offset 21 of the stream (line 2, column 5)",
            &[r"    Date\x00: now\r\n", r"        ^^^^"],
        );
        check(
            SectionKind::Head,
            0,
            b"HTTP/1.1 20\r\n\r\n",
            11,
            "the text of the head goes wrong at offset 11 of the stream (line 1, column 12)",
            &[r"    HTTP/1.1 20\r\n", r"               ^^"],
        );
        check(
            SectionKind::ChunkLine,
            700,
            b"5;OUISIG=\r\n",
            2,
            "the text of a chunk line goes wrong at offset 702 of the stream",
            &[r"    5;OUISIG=\r\n", r"      ^"],
        );
        check(
            SectionKind::DataEnd,
            713,
            b"\rX",
            1,
            "a chunk's data is not followed by CR LF, at offset 714 of the stream",
            &[r"    \rX", r"      ^"],
        );
        check(
            SectionKind::Trailer,
            900,
            b"A: b\r\n\tC\\d\n\r\n\r\n",
            6,
            "the text of the trailer goes wrong at offset 906 of the stream (line 2, column 1)",
            &[r"    \tC\\d\n\r\n", r"    ^^"],
        );
    }

    #[test]
    fn without_an_end() {
        let text = b"<!doctype html>\n<html lang=\"en\">\n".repeat(1000);
        let beginning = r#"    <!doctype html>\n<html lang="en">\n<!doctype html>\n<html lang="en">\n<!..."#;
        check(SectionKind::Head, 0, &text[..32_768], 32_768, "the head has no end within 32,768 bytes", &[beginning]);
        let words = "the trailer, from offset 77 of the stream, has no end within 32,768 bytes";
        check(SectionKind::Trailer, 77, &text[..32_768], 32_768, words, &[beginning]);
        let words = "the chunk line at offset 5 of the stream has no end within 128 bytes";
        let shown = format!("    {}...", "f".repeat(72));
        check(SectionKind::ChunkLine, 5, &b"f".repeat(128), 128, words, &[&shown]);
    }

    #[test]
    fn counts_and_doublings() {
        let fields: String = (0..130).map(|number| format!("f{number}: x\r\n")).collect();
        let head = format!("HTTP/1.1 200 OK\r\n{fields}F2: y\r\n\r\n");
        let whole = head.len() as u64;
        check(SectionKind::Head, 0, head.as_bytes(), whole, "the head has 131 fields, and 128 are the most", &[]);
        let once = |lines: &str, words: &str, shown: &[&str]| {
            let head = format!("HTTP/1.1 200 OK\r\n{lines}\r\n");
            check(SectionKind::Head, 0, head.as_bytes(), head.len() as u64, words, shown);
        };
        once(
            "Vary: x\r\nX-Ouinet-A: 1\r\nvARY: y\r\nDate:\r\nx-oUINET-a:\r\nX-Ouinet-B:\r\n",
            "the head has x-oUINET-a twice, in lines 3 and 6, and may have it only once",
            &[r"    x-oUINET-a:\r\n", "    ^^^^^^^^^^"],
        );
        once(
            "X-Ouinet:\r\nX-Ouinet:\r\ncontent-length: 5\r\nContent-Length: 5\r\nContent-Length: 6\r\n",
            "the head has Content-Length twice, in lines 4 and 5, and may have it only once",
            &[r"    Content-Length: 5\r\n", "    ^^^^^^^^^^^^^^"],
        );
        once(
            "Transfer-Encoding-A:\r\nTransfer-Encoding:\r\nTransfer-Encoding-A:\r\nTransfer-Encoding: chunked\r\n",
            "the head has Transfer-Encoding twice, in lines 3 and 5, and may have it only once",
            &[r"    Transfer-Encoding: chunked\r\n", "    ^^^^^^^^^^^^^^^^^"],
        );
        let long = format!("x-ouinet-{}", "n".repeat(100));
        once(
            &format!("{long}:\r\n{long}:\r\n"),
            &format!("the head has {}... twice, in lines 2 and 3, and may have it only once", &long[..40]),
            &[&format!("    {}...", &long[..72]), &format!("    {}", "^".repeat(72))],
        );
        // No refusal of ours is about these
        let words = "the head has too many fields, or one twice that may come only once";
        once("Vary: x\r\nVary: y\r\n", words, &[]);
    }
}
