//! Small rules about characters that the head, the chunk lines and the trailer share (paper 01,
//! "The head", first point).

use std::ops::Range;

/// The characters of a name (RFC 9110's `tchar`).
pub fn is_name_byte(byte: u8) -> bool {
    byte.is_ascii_alphanumeric() || b"!#$%&'*+-.^_`|~".contains(&byte)
}

/// The bytes that a reason or a value may hold: tab, 32 to 126, 128 to 255.
pub fn is_value_byte(byte: u8) -> bool {
    byte == b'\t' || (byte >= 32 && byte != 127)
}

fn is_blank(byte: u8) -> bool {
    byte == b' ' || byte == b'\t'
}

/// How many spaces and tabs the bytes start with.
pub fn leading_blanks(bytes: &[u8]) -> usize {
    bytes.iter().take_while(|&&b| is_blank(b)).count()
}

/// The part of the bytes without the spaces and tabs at both ends.
pub fn trim(bytes: &[u8]) -> Range<usize> {
    let start = leading_blanks(bytes);
    let end = bytes.iter().rposition(|&b| !is_blank(b)).map_or(start, |last| last + 1);
    start..end
}

/// A field line without its CR LF: where its name and its trimmed value lie in it.
#[derive(Debug, Clone, PartialEq, Eq)]
pub struct FieldLine {
    pub name: Range<usize>,
    pub value: Range<usize>,
}

/// Reads a field line (given without its CR LF): a name of one or more name characters, a colon,
/// a value. Nothing if it breaks that rule.
pub fn field_line(line: &[u8]) -> Option<FieldLine> {
    let colon = line.iter().position(|&b| b == b':')?;
    let name = &line[..colon];
    let rest = &line[colon + 1..];
    if name.is_empty() || !name.iter().all(|&b| is_name_byte(b)) || !rest.iter().all(|&b| is_value_byte(b)) {
        return None;
    }
    let inner = trim(rest);
    Some(FieldLine { name: 0..colon, value: colon + 1 + inner.start..colon + 1 + inner.end })
}

/// Where the lines of a text lie, each without its CR LF. The text must end in CR LF.
pub fn lines(text: &[u8]) -> Vec<Range<usize>> {
    let mut found = Vec::new();
    let mut start = 0;
    while let Some(length) = find(&text[start..], b"\r\n") {
        found.push(start..start + length);
        start += length + 2;
    }
    found
}

/// Where the pattern first starts.
pub fn find(bytes: &[u8], pattern: &[u8]) -> Option<usize> {
    bytes.windows(pattern.len()).position(|window| window == pattern)
}

/// A number written in decimal digits, without a leading zero unless it is `0`, of at most so
/// many digits. Nothing if it is written otherwise or does not fit.
pub fn decimal(text: &[u8], most_digits: usize) -> Option<u64> {
    let too_long = text.is_empty() || text.len() > most_digits;
    let leading_zero = text.len() > 1 && text[0] == b'0';
    if too_long || leading_zero {
        return None;
    }
    let mut number: u64 = 0;
    for &byte in text {
        if !byte.is_ascii_digit() {
            return None;
        }
        number = number.checked_mul(10)?.checked_add(u64::from(byte - b'0'))?;
    }
    Some(number)
}

#[cfg(test)]
mod tests {
    use super::*;

    #[test]
    fn name_characters() {
        let all: Vec<u8> = (0..=255).filter(|&b| is_name_byte(b)).collect();
        assert_eq!(all.len(), 26 + 26 + 10 + 15);
        for byte in b" \t:;,\"()/<=>?@[\\]{}\x7f\x80\xff\r\n\0" {
            assert!(!is_name_byte(*byte));
        }
    }

    #[test]
    fn value_characters() {
        let not: Vec<u8> = (0..=255).filter(|&b| !is_value_byte(b)).collect();
        let mut expected: Vec<u8> = (0..32).filter(|&b| b != 9).collect();
        expected.push(127);
        assert_eq!(not, expected);
    }

    #[test]
    fn trimming() {
        assert_eq!(trim(b""), 0..0);
        assert_eq!(trim(b" \t "), 3..3);
        assert_eq!(trim(b" a b\t"), 1..4);
        assert_eq!(trim(b"a"), 0..1);
    }

    #[test]
    fn decimals() {
        assert_eq!(decimal(b"0", 12), Some(0));
        assert_eq!(decimal(b"999999999999", 12), Some(999_999_999_999));
        assert_eq!(decimal(b"18446744073709551615", 20), Some(u64::MAX));
        for wrong in [&b""[..], b"00", b"01", b"1a", b" 1", b"+1", b"-1", b"18446744073709551616"] {
            assert_eq!(decimal(wrong, 20), None);
        }
        assert_eq!(decimal(b"1000000000000", 12), None);
    }
}
