//! The trailer: CR LF at once, or field lines up to the first CR LF CR LF (paper 01, "Blocks", last
//! point).

use crate::event::Refusal;
use crate::head;
use crate::place::longest_beginning;
use crate::text;

/// So many bytes without the trailer's end are refused: as many as of a head (request #108: "Head and trailer limit").
pub const LIMIT: usize = head::LIMIT;
/// The whole of an empty trailer.
pub const EMPTY: &[u8] = b"\r\n";
/// What any other trailer ends with.
pub const END: &[u8] = b"\r\n\r\n";

/// Whether these bytes, gathered from the trailer's first one on, are a whole trailer.
pub fn is_whole(bytes: &[u8]) -> bool {
    bytes == EMPTY || bytes.ends_with(END)
}

/// The names and trimmed values of a good trailer's fields, in their order.
pub fn fields(bytes: &[u8]) -> impl Iterator<Item = (&[u8], &[u8])> {
    let lines = text::lines(bytes).into_iter().map(|line| &bytes[line]);
    lines.filter_map(|line| text::field_line(line).map(|field| (&line[field.name], &line[field.value])))
}

/// Whether these bytes are one trailer and each of its lines keeps the field line rule. The fields are neither counted nor
/// compared.
pub fn is_good(bytes: &[u8]) -> bool {
    if bytes == EMPTY {
        return true;
    }
    let Some(lines) = bytes.strip_suffix(EMPTY).filter(|_| bytes.ends_with(END)) else { return false };
    text::lines(lines).into_iter().all(|line| text::field_line(&lines[line]).is_some())
}

/// Where field lines up to CR LF CR LF went wrong, of a trailer or of a head behind its status line. From the first wrong line on
/// they are such a text again, and the good lines before it need not be tried over and over.
pub fn place(bytes: &[u8]) -> usize {
    let wrong = text::lines(bytes).into_iter().find(|line| text::field_line(&bytes[line.clone()]).is_none());
    let start = wrong.map_or(0, |line| line.start);
    start + longest_beginning(&bytes[start..], &[b"a:\r\n\r\n"], is_good)
}

/// Judges a whole trailer.
pub fn judge(bytes: &[u8]) -> Result<(), Refusal> {
    if is_good(bytes) {
        Ok(())
    } else {
        Err(Refusal::frame(place(bytes)))
    }
}

#[cfg(test)]
mod tests {
    use super::*;

    #[test]
    fn names_and_values() {
        let of = |bytes: &'static [u8]| -> Vec<(&[u8], &[u8])> { fields(bytes).collect() };
        assert_eq!(of(b"\r\n"), []);
        assert_eq!(of(b"a:\r\nB: \tc d \r\na:e\r\n\r\n"), [(&b"a"[..], &b""[..]), (b"B", b"c d"), (b"a", b"e")]);
    }

    #[test]
    fn good_and_bad_text() {
        for good in [&b"\r\n"[..], b"a:\r\n\r\n", b"a: b\r\na: b\r\n\r\n"] {
            assert_eq!(judge(good), Ok(()));
        }
        let bad: [(&[u8], usize); 5] = [
            (b"\rx\r\n\r\n", 1),
            (b"a b: c\r\n\r\n", 1),
            (b": c\r\n\r\n", 0),
            (b"a: b\r\n c\r\n\r\n", 6),
            (b"a\r\n\r\n", 1),
        ];
        for (text, place) in bad {
            assert_eq!(judge(text), Err(Refusal::frame(place)));
        }
    }
}
