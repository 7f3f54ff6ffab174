//! Events as lines of JSON.

use ouinet_reader::{Event, PartRange, Reader, Refusal};
use std::fmt::Write;

/// What the line of an event has between its braces.
pub fn members(reader: &Reader, event: &Event) -> String {
    match event {
        Event::Question(question) => {
            format!(r#""event":"question","length":{},"record":{}"#, question.message.len(), question.record)
        }
        Event::HeadAccepted { status } => {
            let uri = quoted(&reader.value("X-Ouinet-URI"));
            let range = reader.range().map_or(String::new(), range);
            format!(r#""event":"head","status":{status},"uri":{uri}{range}"#)
        }
        Event::Block { offset, bytes } => {
            format!(r#""event":"block","offset":{offset},"length":{}"#, bytes.len())
        }
        Event::Closed { total } => format!(r#""event":"closed","total":{total}"#),
        Event::Complete { total } => format!(r#""event":"complete","total":{total}"#),
        Event::Refused(refusal) => refused(reader, *refusal),
    }
}

/// What the last event's line has besides: that any URI would do, and how many bytes a body has that is gone on with.
pub fn last_members(any_uri: bool, body: Option<u64>) -> String {
    let any_uri = if any_uri { r#","any_uri":true"# } else { "" };
    let body = body.map_or(String::new(), |body| format!(r#","body":{body}"#));
    format!("{any_uri}{body}")
}

/// Which bytes of the show a part answer has.
fn range(PartRange { first, last, total }: PartRange) -> String {
    format!(r#","range":{{"first":{first},"last":{last},"total":{total}}}"#)
}

/// Of another show the line has both URIs, too.
fn refused(reader: &Reader, refusal: Refusal) -> String {
    let meaning = quoted(refusal.meaning().as_bytes());
    let at = number_or_null(refusal.at());
    let start = reader.refused_section().map(|section| section.start);
    let offset = number_or_null(refusal.at().zip(start).map(|(at, start)| start + at));
    let number = refusal.number();
    let shows = reader
        .offered_uri()
        .map_or(String::new(), |offered| format!(r#","asked":{},"got":{}"#, quoted(reader.uri()), quoted(offered)));
    format!(r#""event":"refused","number":{number},"meaning":{meaning},"at":{at},"stream_offset":{offset}{shows}"#)
}

fn number_or_null(number: Option<u64>) -> String {
    number.map_or("null".to_string(), |number| number.to_string())
}

/// Bytes as a JSON string, a character for each byte: a field's value need not be UTF-8.
fn quoted(bytes: &[u8]) -> String {
    let mut out = String::from("\"");
    for &byte in bytes {
        match byte {
            b'"' | b'\\' => {
                out.push('\\');
                out.push(char::from(byte));
            }
            32..=126 => out.push(char::from(byte)),
            // Writing to a string does not fail
            _ => drop(write!(out, "\\u{byte:04x}")),
        }
    }
    out.push('"');
    out
}

#[cfg(test)]
mod tests {
    use super::*;

    #[test]
    fn strings() {
        assert_eq!(quoted(b"a b"), "\"a b\"");
        assert_eq!(quoted(b"\"\\\t\xe9\x7f"), "\"\\\"\\\\\\u0009\\u00e9\\u007f\"");
    }
}
