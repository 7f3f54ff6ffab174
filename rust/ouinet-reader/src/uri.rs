//! The URI that a head gives, and what is said where it is not the one that was asked for.

/// So many bytes of a URI are shown.
const MOST_SHOWN: usize = 100;
/// Of URIs that are longer, so many are shown before the first byte in which they differ.
const BEFORE_DIFFERENCE: usize = 40;
/// What stands where something is left out.
const CUT: &str = "...";

/// The URI in the head at the front of a stream: the value of its first `X-Ouinet-URI` line that has one, the name in any case, the
/// value without the spaces and tabs at its ends. Nothing if there is no such line, or if the head has no end yet.
///
/// It is what the sender says, and nobody has verified it. Hand it to a [`Reader`](crate::Reader) as the URI asked for only where
/// any show will do, and the user has said so.
pub fn head_uri(stream: &[u8]) -> Option<&[u8]> {
    let end = stream.windows(4).position(|four| four == b"\r\n\r\n")?;
    let mut rest = &stream[..end + 2];
    while let Some(length) = rest.windows(2).position(|two| two == b"\r\n") {
        if let Some(value) = value_of(&rest[..length], b"X-Ouinet-URI") {
            return Some(value);
        }
        rest = &rest[length + 2..];
    }
    None
}

/// The value of a line of that name.
fn value_of<'l>(line: &'l [u8], name: &[u8]) -> Option<&'l [u8]> {
    let (front, rest) = line.split_at_checked(name.len())?;
    let value = rest.strip_prefix(b":").filter(|_| front.eq_ignore_ascii_case(name))?;
    let is_text = |byte: &u8| *byte != b' ' && *byte != b'\t';
    let start = value.iter().position(is_text)?;
    let last = value.iter().rposition(is_text)?;
    Some(&value[start..=last])
}

/// The sentence for the person who waits for a show and gets another: ``this is another show: asked for `..`, got `..` ``, each as
/// [`quoted`] has it. Where one is long, what they have in common is cut, so that the first byte in which they differ is shown of both.
pub fn another_show(asked: &[u8], got: &[u8]) -> String {
    let alike = asked.iter().zip(got).take_while(|(a, b)| a == b).count();
    let is_long = asked.len().max(got.len()) > MOST_SHOWN;
    let start = if is_long { alike.saturating_sub(BEFORE_DIFFERENCE) } else { 0 };
    let [asked, got] = [asked, got].map(|uri| quoted_from(uri, start));
    format!("this is another show: asked for {asked}, got {got}")
}

/// A URI from anywhere, between backticks, as it may be shown to a person: printable ASCII as it is, but for a backslash, which is
/// doubled, and a backtick, which would end the quotation; that and any other byte is `\x` and two digits. At most 100 bytes are
/// shown, with dots behind them if there are more.
pub fn quoted(uri: &[u8]) -> String {
    quoted_from(uri, 0)
}

/// The same of what stands from a place on, with dots before it if it is not the beginning.
fn quoted_from(uri: &[u8], start: usize) -> String {
    let before = if start > 0 { CUT } else { "" };
    format!("`{before}{}`", beginning(&uri[start..], MOST_SHOWN, escaped_in_quotation))
}

/// Text from anywhere, as it may be shown to a person: printable ASCII as it is, all else escaped, a backslash too, so that an
/// escape cannot be mistaken for text. At most so many bytes are shown, with dots behind them if there are more.
pub fn printable(bytes: &[u8], most: usize) -> String {
    beginning(bytes, most, escaped_in_text)
}

/// At most so many bytes, each escaped in this way, and dots behind them if there are more.
fn beginning(bytes: &[u8], most: usize, escaped: fn(u8) -> String) -> String {
    let shown: String = bytes.iter().take(most).map(|&byte| escaped(byte)).collect();
    let after = if bytes.len() > most { CUT } else { "" };
    shown + after
}

fn escaped_in_text(byte: u8) -> String {
    match byte {
        b'\r' => r"\r".to_string(),
        b'\n' => r"\n".to_string(),
        b'\t' => r"\t".to_string(),
        _ => escaped(byte),
    }
}

fn escaped_in_quotation(byte: u8) -> String {
    match byte {
        b'`' => in_digits(byte),
        _ => escaped(byte),
    }
}

fn escaped(byte: u8) -> String {
    match byte {
        b'\\' => r"\\".to_string(),
        32..=126 => char::from(byte).to_string(),
        _ => in_digits(byte),
    }
}

fn in_digits(byte: u8) -> String {
    format!(r"\x{byte:02x}")
}

#[cfg(test)]
mod tests {
    use super::*;

    #[test]
    fn uris_of_heads() {
        for (head, uri) in [
            ("HTTP/1.1 200 OK\r\nX-Ouinet-URI: a\r\n\r\n", Some("a")),
            ("HTTP/1.1 200 OK\r\nDate:\r\nx-oUINET-uri:\t a b \t\r\nA: b\r\n\r\n", Some("a b")),
            ("X-Ouinet-URI:a:b\r\n\r\nmore", Some("a:b")),
            ("A:\r\nX-Ouinet-URI: a\r\nX-Ouinet-URI: b\r\n\r\n", Some("a")),
            ("A: X-Ouinet-URI: a\r\nB:\r\n\r\n", None),
            ("X-Ouinet-URI2: a\r\nX-Ouinet-URI : b\r\n X-Ouinet-URI: c\r\n\r\n", None),
            ("A:\nX-Ouinet-URI: a\r\n\r\n", None),
            ("A:\r\n\r\nX-Ouinet-URI: a\r\n\r\n", None),
            ("X-Ouinet-URI: a\r\n", None),
            ("X-Ouinet-URI: a\r\n\r", None),
            ("X-Ouinet-URI\r\n\r\n", None),
            ("X-Ouinet-URI: \t \r\n\r\n", None),
            ("\r\n\r\n", None),
            ("", None),
        ] {
            assert_eq!(head_uri(head.as_bytes()), uri.map(str::as_bytes), "{head:?}");
        }
    }

    #[test]
    fn sentences() {
        let south = "https://example.com/south";
        assert_eq!(
            another_show(south.as_bytes(), b"https://example.com/north"),
            "this is another show: asked for `https://example.com/south`, got `https://example.com/north`"
        );
        assert_eq!(another_show(b"", b"u"), "this is another show: asked for ``, got `u`");
        assert_eq!(
            another_show(b"u\n", b"\x1b[2Ju\\\xe9\x7f"),
            r"this is another show: asked for `u\x0a`, got `\x1b[2Ju\\\xe9\x7f`"
        );
        // A quotation's end cannot be forged
        assert_eq!(another_show(b"a`, got `b", b"b"), r"this is another show: asked for `a\x60, got \x60b`, got `b`");
    }

    #[test]
    fn sentences_about_long_ones() {
        let front = "x".repeat(90);
        let sentence = another_show(format!("{front}south{front}").as_bytes(), format!("{front}north").as_bytes());
        let (before, after) = ("x".repeat(40), "x".repeat(55));
        let due = format!("this is another show: asked for `...{before}south{after}...`, got `...{before}north`");
        assert_eq!(sentence, due);
        // One is the other's beginning
        let sentence = another_show(&b"a".repeat(1_000_000), &b"a".repeat(200));
        assert!(sentence.ends_with(&format!(", got `...{}`", "a".repeat(40))), "{sentence}");
        let sentence = another_show(&b"\0".repeat(1_000_000), &b"\x01".repeat(8000));
        assert!(sentence.len() < 1000, "{sentence}");
    }

    /// The two URIs as a sentence shows them.
    fn shown(asked: &[u8], got: &[u8]) -> [String; 2] {
        let sentence = another_show(asked, got);
        let parts: Vec<&str> = sentence.split('`').collect();
        let [front, asked, between, got, after] = parts[..] else { panic!("{sentence}") };
        assert_eq!((front, between, after), ("this is another show: asked for ", ", got ", ""));
        [asked.to_string(), got.to_string()]
    }

    #[test]
    fn what_is_cut() {
        let x = |count: usize| "x".repeat(count);
        for (asked, got, due) in [
            // Neither is long
            (x(99) + "s", x(99) + "n", [x(99) + "s", x(99) + "n"]),
            (x(100), x(99), [x(100), x(99)]),
            // One is, by a byte
            (x(101), x(100), [format!("...{}", x(41)), format!("...{}", x(40))]),
            (x(99) + "ss", x(99) + "n", [format!("...{}ss", x(40)), format!("...{}n", x(40))]),
            // They have 40 bytes in common, or one more
            (x(101), x(40) + "n", [x(100) + "...", x(40) + "n"]),
            (x(101), x(41) + "n", [format!("...{}", x(100)), format!("...{}n", x(40))]),
            (x(102), x(41) + "n", [format!("...{}...", x(100)), format!("...{}n", x(40))]),
            (x(102), String::new(), [x(100) + "...", String::new()]),
            // An escape counts as one byte
            ("`".repeat(101), "`".into(), [r"\x60".repeat(100) + "...", r"\x60".into()]),
        ] {
            assert_eq!(shown(asked.as_bytes(), got.as_bytes()), due, "{asked}, {got}");
            let [first, second] = due;
            assert_eq!(shown(got.as_bytes(), asked.as_bytes()), [second, first], "{got}, {asked}");
        }
    }

    #[test]
    fn quotations() {
        for byte in 0..=255 {
            let is_plain = (32..127).contains(&byte) && !b"\\`".contains(&byte);
            let due = match byte {
                b'\\' => r"\\".to_string(),
                _ if is_plain => char::from(byte).to_string(),
                _ => format!(r"\x{byte:02x}"),
            };
            assert_eq!(quoted(&[byte]), format!("`{due}`"));
        }
        assert_eq!(quoted(b"\t\r\n`\\\xff "), r"`\x09\x0d\x0a\x60\\\xff `");
        let hundred = "x".repeat(100);
        assert_eq!(quoted(hundred.as_bytes()), format!("`{hundred}`"));
        assert_eq!(quoted(format!("{hundred}y").as_bytes()), format!("`{hundred}...`"));
    }

    #[test]
    fn bytes() {
        for byte in 0..=255 {
            let shown = printable(&[byte], 1);
            assert!(shown.bytes().all(|byte| (32..127).contains(&byte)), "{byte}");
            assert_eq!(shown.len() == 1, (32..127).contains(&byte) && byte != b'\\');
        }
        assert_eq!(printable(&[0, 9, 10, 13, 27, 92, 127, 255], 8), r"\x00\t\n\r\x1b\\\x7f\xff");
        assert_eq!((printable(b"abc", 3), printable(b"abc", 2)), ("abc".to_string(), "ab...".to_string()));
    }
}
