//! What is said of a head with another URI than the one asked for (request #105). The head's is not verified, and both
//! may hold any bytes, so what is shown of them is printable ASCII between backticks, and has no backtick of its own.

/// Two URIs of no more bytes than this are shown whole; of longer ones no more than these are shown.
const ROOM: usize = 100;
/// Of what two longer ones begin with alike, no more than its last bytes are shown.
const ALIKE_SHOWN: usize = 40;

/// The sentence, without a line feed.
pub fn sentence(asked: &[u8], got: &[u8]) -> String {
    let skipped = skipped(asked, got);
    format!("this is another show: asked for `{}`, got `{}`", shown(asked, skipped), shown(got, skipped))
}

/// How many bytes are left out at the front of both.
fn skipped(asked: &[u8], got: &[u8]) -> usize {
    if asked.len() <= ROOM && got.len() <= ROOM {
        return 0;
    }
    let shorter = asked.len().min(got.len());
    let alike = (0..shorter).find(|&place| asked[place] != got[place]).unwrap_or(shorter);
    alike.max(ALIKE_SHOWN) - ALIKE_SHOWN
}

/// What is shown of a URI, with dots where some of it is left out.
fn shown(uri: &[u8], skipped: usize) -> String {
    let end = uri.len().min(skipped + ROOM);
    let mut out = String::new();
    if skipped > 0 {
        out += "...";
    }
    for &byte in &uri[skipped..end] {
        out += &shown_byte(byte);
    }
    if end < uri.len() {
        out += "...";
    }
    out
}

/// A backslash is escaped, so that no text looks like an escape, and a backtick, so that none looks like the end.
fn shown_byte(byte: u8) -> String {
    match byte {
        b'\\' => "\\\\".to_string(),
        b' '..=b'~' if byte != b'`' => char::from(byte).to_string(),
        _ => format!("\\x{byte:02x}"),
    }
}

#[cfg(test)]
mod tests {
    use super::*;

    #[test]
    fn sentences() {
        assert_eq!(sentence(b"a", b"b"), "this is another show: asked for `a`, got `b`");
        let odd = sentence(b"", b"\x1b[2J\n\t\\ \"\xe9~\x7f");
        assert_eq!(odd, r#"this is another show: asked for ``, got `\x1b[2J\x0a\x09\\ "\xe9~\x7f`"#);
        let forged = sentence(b"a`, got `b", b"c");
        assert_eq!(forged, r"this is another show: asked for `a\x60, got \x60b`, got `c`");
    }

    #[test]
    fn long_ones() {
        let x = |count: usize| "x".repeat(count);
        let check = |asked: String, got: String, asked_shown: String, got_shown: String| {
            let due = format!("this is another show: asked for `{asked_shown}`, got `{got_shown}`");
            assert_eq!(sentence(asked.as_bytes(), got.as_bytes()), due);
            let due = format!("this is another show: asked for `{got_shown}`, got `{asked_shown}`");
            assert_eq!(sentence(got.as_bytes(), asked.as_bytes()), due);
        };
        check(x(99) + "s", x(99) + "n", x(99) + "s", x(99) + "n");
        check(x(99) + "ss", x(99) + "n", format!("...{}ss", x(40)), format!("...{}n", x(40)));
        check(x(100), x(101), format!("...{}", x(40)), format!("...{}", x(41)));
        check(x(101), String::new(), x(100) + "...", String::new());
        check(x(7000), x(20) + "n", x(100) + "...", x(20) + "n");
        check(x(7000), x(40), x(100) + "...", x(40));
        check(x(7000), x(41), format!("...{}...", x(100)), format!("...{}", x(40)));
        // So many bytes, and one more, behind what is cut in front
        let late = x(5000);
        check(
            format!("{late}s{}", x(60)),
            format!("{late}n{}", x(59)),
            format!("...{}s{}...", x(40), x(59)),
            format!("...{}n{}", x(40), x(59)),
        );
    }

    #[test]
    fn each_byte() {
        for byte in 0..=255_u8 {
            let said = shown(&[byte], 0);
            let is_plain = byte.is_ascii_graphic() || byte == b' ';
            assert!(said.bytes().all(|byte| (32..127).contains(&byte) && byte != b'`'), "{said}");
            assert_eq!(said.len() == 1, is_plain && !b"`\\".contains(&byte), "{said}");
        }
        assert_eq!(shown(&[0; 101], 0), format!("{}...", "\\x00".repeat(100)));
    }
}
