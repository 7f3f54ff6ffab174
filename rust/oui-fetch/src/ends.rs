//! What is said where the end of a show is refused: by 13, 14 and 15, by 12 at the trailer's end, and after a no to the last question. The
//! reader has decided; here the cause is looked for, to be told. The fields may stand in the head or in the trailer, and nobody has verified
//! them, so what is shown of them is printable.

use ouinet_reader::{quoted, Refusal};

const DIGEST: &str = "Digest";
const SIZE: &str = "X-Ouinet-Data-Size";
const SIG1: &str = "X-Ouinet-Sig1";
const SIG0: &str = "X-Ouinet-Sig0";
/// What Sig1's list has behind Sig0's.
const ADDED: [&[u8]; 2] = [b"digest", b"x-ouinet-data-size"];

/// What is said of a stream that is closed and not complete.
pub const NOT_CHECKED: &str =
    "whether the show is complete was not checked: the stream has none of Digest, X-Ouinet-Data-Size and X-Ouinet-Sig1";

/// What is said of a part answer with which the body has all bytes.
pub const PART_NOT_CHECKED: &str =
    "whether the show is complete was not checked: the end of a part answer, and that length, are not signed";

/// What is said after a no to the question about the end.
pub const WRONG_SIGNATURE: &str =
    "the signature over the show's end, X-Ouinet-Sig1, is wrong: the stream was changed on its way, or not signed with this key";

/// Where the fields about the end may stand.
pub struct Sections<'a> {
    /// The accepted head.
    pub head: &'a [u8],
    pub trailer: &'a [u8],
}

/// The cause of a refusal at the trailer's end, after so many bytes of body.
pub fn cause(refusal: Refusal, sections: &Sections, released: u64) -> Option<String> {
    match refusal {
        Refusal::BadEnds => Some(wrong_fields(sections)),
        Refusal::OtherLength => sections.all(SIZE).first().map(|line| other_length(line.value, released)),
        Refusal::OtherDigest => Some(format!(
            "these are not the bytes of the whole show: the stream gives another SHA-256 than that of the {released} that came"
        )),
        Refusal::Untrusted => Some(format!("the show's end is signed with another key: {SIG1} has another than {SIG0}")),
        _ => None,
    }
}

/// Too little came, or too much.
fn other_length(size: &[u8], released: u64) -> String {
    let due: Option<u64> = std::str::from_utf8(size).ok().and_then(|digits| digits.parse().ok());
    let front = match due {
        Some(due) if due < released => "this is more than the show",
        _ => "the show is not complete",
    };
    format!("{front}: the stream gives its length as {}, and {released} bytes came", quoted(size))
}

/// A line of one of the fields.
struct Line<'a> {
    place: &'static str,
    value: &'a [u8],
}

impl<'a> Sections<'a> {
    /// The lines of a name, in any case.
    fn all(&self, name: &str) -> Vec<Line<'a>> {
        let named = |place, section| values(section, name).into_iter().map(move |value| Line { place, value });
        named("head", self.head).chain(named("trailer", self.trailer)).collect()
    }
}

/// The values of the lines with a name, in any case, without the blanks around them.
fn values<'a>(section: &'a [u8], name: &str) -> Vec<&'a [u8]> {
    let lines = section.split(|&byte| byte == b'\n');
    let fields = lines.filter_map(|line| {
        let colon = line.iter().position(|&byte| byte == b':')?;
        Some((&line[..colon], line[colon + 1..].trim_ascii()))
    });
    fields.filter(|(own, _)| own.eq_ignore_ascii_case(name.as_bytes())).map(|(_, value)| value).collect()
}

/// What is wrong with the three, in the order in which it is easiest to understand.
fn wrong_fields(sections: &Sections) -> String {
    let found = [DIGEST, SIZE, SIG1].map(|name| (name, sections.all(name)));
    let names = |wanted: fn(usize) -> bool| -> Vec<&str> {
        found.iter().filter(|(_, lines)| wanted(lines.len())).map(|(name, _)| *name).collect()
    };
    let absent = names(|count| count == 0);
    if !absent.is_empty() {
        let there = names(|count| count > 0).join(" and ");
        return format!(
            "the stream has {there} but no {}, and all three or none must be there",
            absent.join(" and no ")
        );
    }
    if let Some((name, lines)) = found.iter().find(|(_, lines)| lines.len() > 1) {
        let (first, second) = (lines[0].place, lines[1].place);
        let places =
            if first == second { format!("in the {first}") } else { format!("in the {first} and in the {second}") };
        return format!("the stream has {name} twice, {places}");
    }
    let [digest, size, sig1] = found.map(|(_, lines)| lines[0].value);
    wrong_text(digest, size).unwrap_or_else(|| wrong_list(sections, sig1))
}

fn wrong_text(digest: &[u8], size: &[u8]) -> Option<String> {
    if !is_digest(digest) {
        return Some(format!("{DIGEST} is not SHA-256= and 44 characters of base64: {}", quoted(digest)));
    }
    if !is_size(size) {
        return Some(format!("{SIZE} is not a number of 1 to 10 digits without zeros before it: {}", quoted(size)));
    }
    None
}

/// `SHA-256=` as it stands here, and 32 bytes in base64.
fn is_digest(value: &[u8]) -> bool {
    let is_letter = |&byte: &u8| byte.is_ascii_alphanumeric() || byte == b'+' || byte == b'/';
    let Some(letters) = value.strip_prefix(b"SHA-256=").and_then(|text| text.strip_suffix(b"=")) else { return false };
    // Of the last letter's six bits two are spare, and zero
    letters.len() == 43 && letters.iter().all(is_letter) && b"AEIMQUYcgkosw048".contains(&letters[42])
}

fn is_size(value: &[u8]) -> bool {
    (1..=10).contains(&value.len()) && value.iter().all(u8::is_ascii_digit) && (value[0] != b'0' || value.len() == 1)
}

fn wrong_list(sections: &Sections, sig1: &[u8]) -> String {
    let (Some(own), Some(list)) = (values(sections.head, SIG0).first().and_then(|value| names(value)), names(sig1))
    else {
        return format!("{SIG1} is not written as {SIG0} is");
    };
    if let Some(name) = ADDED.iter().find(|name| own.iter().any(|own| own == *name)) {
        return format!("{SIG0} signs {} already, which {SIG1} alone may sign", quoted(name));
    }
    if list.iter().map(Vec::as_slice).ne(own.iter().map(Vec::as_slice).chain(ADDED)) {
        return format!("the names that {SIG1} signs are not those of {SIG0} and then digest and x-ouinet-data-size");
    }
    format!("{SIG1} is not written as {SIG0} is")
}

/// The names in the list of a signature's field, in lower case.
fn names(value: &[u8]) -> Option<Vec<Vec<u8>>> {
    let start = value.windows(9).position(|nine| nine == b"headers=\"")? + 9;
    let list = value[start..].split(|&byte| byte == b'"').next()?;
    Some(list.split(|&byte| byte == b' ').map(<[u8]>::to_ascii_lowercase).collect())
}

#[cfg(test)]
mod tests {
    use super::*;

    const HEAD: &str = "HTTP/1.1 200 OK\r\nX-Ouinet-Sig0: keyId=\"k\",headers=\"(created) a\",signature=\"s\"\r\n";
    const GOOD_DIGEST: &str = "SHA-256=wFNeS+K3n/2TKRMFQ2v4iTFOSj+uwF7P/Lt98xrZ5Ro=";
    const GOOD_SIG1: &str = "keyId=\"k\",headers=\"(Created) A digest X-Ouinet-Data-Size\",signature=\"s\"";

    fn check(in_head: &str, trailer: &str, words: &str) {
        let head = format!("{HEAD}{in_head}\r\n");
        let sections = Sections { head: head.as_bytes(), trailer: trailer.as_bytes() };
        assert_eq!(cause(Refusal::BadEnds, &sections, 12).as_deref(), Some(words));
    }

    fn three(digest: &str, size: &str, sig1: &str) -> String {
        format!("digest:{digest} \r\nX-OUINET-data-size: {size}\r\nX-Ouinet-Sig1:\t{sig1}\r\n\r\n")
    }

    #[test]
    fn some_but_not_all() {
        check(
            "",
            "Digest: x\r\n\r\n",
            "the stream has Digest but no X-Ouinet-Data-Size and no X-Ouinet-Sig1, and all three or none must be there",
        );
        check(
            "x-ouinet-sig1: x\r\n",
            "digest: x\r\n\r\n",
            "the stream has Digest and X-Ouinet-Sig1 but no X-Ouinet-Data-Size, and all three or none must be there",
        );
    }

    #[test]
    fn twice() {
        let good = three(GOOD_DIGEST, "12", GOOD_SIG1);
        check("Digest: x\r\n", &good, "the stream has Digest twice, in the head and in the trailer");
        check("", &format!("X-Ouinet-Sig1: x\r\n{good}"), "the stream has X-Ouinet-Sig1 twice, in the trailer");
    }

    #[test]
    fn texts() {
        for digest in [
            "",
            "x\u{7f}",
            "sha-256=wFNeS+K3n/2TKRMFQ2v4iTFOSj+uwF7P/Lt98xrZ5Ro=",
            &GOOD_DIGEST[..51],
            &format!("{GOOD_DIGEST}="),
        ] {
            let shown = quoted(digest.as_bytes());
            let words = format!("Digest is not SHA-256= and 44 characters of base64: {shown}");
            check("", &three(digest, "12", GOOD_SIG1), &words);
        }
        // Spare bits
        let digest = GOOD_DIGEST.replace("Ro=", "Rp=");
        check(
            "",
            &three(&digest, "12", GOOD_SIG1),
            &format!("Digest is not SHA-256= and 44 characters of base64: `{digest}`"),
        );
        for size in ["", "012", "00", "12345678901", "1 2", "-1", "0x5"] {
            let words =
                format!("X-Ouinet-Data-Size is not a number of 1 to 10 digits without zeros before it: `{size}`");
            check("", &three(GOOD_DIGEST, size, GOOD_SIG1), &words);
        }
    }

    #[test]
    fn lists() {
        let written = "X-Ouinet-Sig1 is not written as X-Ouinet-Sig0 is";
        let other =
            "the names that X-Ouinet-Sig1 signs are not those of X-Ouinet-Sig0 and then digest and x-ouinet-data-size";
        check("", &three(GOOD_DIGEST, "0", "x"), written);
        check("", &three(GOOD_DIGEST, "12", GOOD_SIG1), written);
        for list in [
            "(created) a",
            "(created) digest x-ouinet-data-size",
            "(created) a x-ouinet-data-size digest",
            "(created)  a digest x-ouinet-data-size",
        ] {
            check("", &three(GOOD_DIGEST, "12", &format!("headers=\"{list}\"")), other);
        }
        let head = HEAD.replace(" a\"", " a Digest\"");
        let trailer = three(GOOD_DIGEST, "12", GOOD_SIG1);
        let sections = Sections { head: head.as_bytes(), trailer: trailer.as_bytes() };
        let words = cause(Refusal::BadEnds, &sections, 12);
        assert_eq!(words.as_deref(), Some("X-Ouinet-Sig0 signs `digest` already, which X-Ouinet-Sig1 alone may sign"));
    }

    #[test]
    fn what_they_say() {
        let trailer = three(GOOD_DIGEST, "13", GOOD_SIG1);
        let sections = Sections { head: HEAD.as_bytes(), trailer: trailer.as_bytes() };
        let words = |refusal| cause(refusal, &sections, 12).unwrap_or_default();
        assert_eq!(
            words(Refusal::OtherLength),
            "the show is not complete: the stream gives its length as `13`, and 12 bytes came"
        );
        assert_eq!(
            other_length(b"11", 12),
            "this is more than the show: the stream gives its length as `11`, and 12 bytes came"
        );
        assert!(words(Refusal::OtherDigest).ends_with("another SHA-256 than that of the 12 that came"));
        assert!(words(Refusal::Untrusted).ends_with("X-Ouinet-Sig1 has another than X-Ouinet-Sig0"));
        assert_eq!(cause(Refusal::Unfinished, &sections, 12), None);
    }
}
