//! The head: from the first byte of the stream to the first CR LF CR LF. It is judged once, whole.
//! The rules are those of paper 01, "The head", points of whose list are cited by their first words, and for a name that
//! comes in several lines those of request #102, for the URI that the caller asked for those of request #105, and for an answer
//! that has a part of a show those of request #104. The two limits are those of request #108.

use crate::base64;
use crate::ends::Given;
use crate::event::Refusal;
use crate::part::{self, Part};
use crate::place::longest_beginning;
use crate::ring::{self, Record};
use crate::scan::Scan;
use crate::text;
use crate::trailer;
use std::ops::Range;

/// So many bytes without the head's end are refused.
pub const LIMIT: usize = 32_768;
/// What a head ends with.
pub const END: &[u8] = b"\r\n\r\n";

/// The most field lines of a head.
pub const MOST_FIELDS: usize = 128;
/// The most names in the signed list, the two pseudo names included.
pub const MOST_LISTED: usize = 32;
const MOST_BLOCK: u64 = 65_536;
/// The statuses that a whole show may have.
const STATUSES: [u16; 4] = [200, 301, 302, 307];
/// What the signed list begins with, in lower case.
const PSEUDO: [&[u8]; 2] = [b"(response-status)", b"(created)"];

/// What the rest of the reading needs from a good head.
#[derive(Debug, Clone, PartialEq, Eq)]
pub struct Head {
    /// The status of this answer.
    pub status: u16,
    /// What stands for `(response-status)`: that of the whole show.
    pub signed_status: u16,
    /// Which bytes of the show come, if this is a part answer.
    pub part: Option<Part>,
    pub id: Vec<u8>,
    pub block_size: u32,
    /// The key that signed the head.
    pub key: [u8; 32],
    pub signature: [u8; 64],
    pub record: usize,
    pub signing_string: Vec<u8>,
    /// What the signing string has after `(created)`, with a line feed before each line.
    pub signed_lines: Vec<u8>,
    /// The listed fields.
    pub signed: Vec<Signed>,
    /// What it says about the end of the show, which is not judged here.
    pub given: Given,
}

/// A listed field, as it is handed out: "The handed-out value of a repeated field is its first part; a count says how many
/// there are" (#102).
#[derive(Debug, Clone, PartialEq, Eq)]
pub struct Signed {
    /// In lower case.
    pub name: Vec<u8>,
    /// Where the value of the first line lies in the head.
    pub value: Range<usize>,
    /// How many lines have the name.
    pub count: usize,
}

impl Head {
    /// The listed field of that name, compared without case.
    pub fn signed(&self, name: &[u8]) -> Option<&Signed> {
        self.signed.iter().find(|field| field.name.eq_ignore_ascii_case(name))
    }

    /// The signed list in lower case, the two pseudo names included.
    pub fn listed(&self) -> impl Iterator<Item = &[u8]> {
        PSEUDO.into_iter().chain(self.signed.iter().map(|field| &field.name[..]))
    }
}

/// Judges a whole head, CR LF CR LF included: first all that is 3, then 4 and 5 in the order of the paper's list, then 16, "after
/// all of 4 and 5 and before 12" (#105), then 12 (opening words of the section). `asked` is the URI that the caller asked for.
pub fn judge(bytes: &[u8], ring: &[Record], asked: &[u8]) -> Result<Head, Refusal> {
    let text = HeadText::judge(bytes)?;
    match text.value(b"X-Ouinet-Version") {
        None => return Err(Refusal::plain(4)),
        Some(b"4") => (),
        Some(_) => return Err(Refusal::plain(5)),
    }
    let rules = Rules::check(&text).ok_or(Refusal::plain(4))?;
    // The field's value has lost its blanks; the asked bytes keep theirs, and no case is folded
    if rules.uri != asked {
        return Err(Refusal::plain(16));
    }
    let record = ring::look_up(ring, &rules.sig0.key, rules.injection.ts).ok_or(Refusal::plain(12))?;
    if rules.bsigs.key != rules.sig0.key {
        return Err(Refusal::plain(12));
    }
    let signed_lines: Vec<u8> = rules.listed.iter().flat_map(|field| field.line(&text)).collect();
    Ok(Head {
        status: text.status(),
        signed_status: rules.signed_status,
        part: rules.part,
        id: rules.injection.id.to_vec(),
        block_size: rules.bsigs.size,
        key: rules.sig0.key,
        signature: rules.sig0.signature,
        record,
        signing_string: signing_string(rules.signed_status, rules.sig0.created, &signed_lines),
        signed_lines,
        signed: rules.listed.into_iter().map(Listed::handed_out).collect(),
        given: text.given(),
    })
}

/// Whether a name may come in more than one line: not one that begins `X-Ouinet-`, nor `Content-Length` or
/// `Transfer-Encoding` (#102).
pub fn may_repeat(name: &[u8]) -> bool {
    let ours = b"X-Ouinet-";
    let is_ours = name.get(..ours.len()).is_some_and(|front| front.eq_ignore_ascii_case(ours));
    let is_framing = name.eq_ignore_ascii_case(b"Content-Length") || name.eq_ignore_ascii_case(b"Transfer-Encoding");
    !is_ours && !is_framing
}

/// A field's name and trimmed value, as places in the head.
#[derive(Debug, Clone)]
struct Field {
    name: Range<usize>,
    value: Range<usize>,
}

/// A head whose text is good ("Status line").
struct HeadText<'a> {
    bytes: &'a [u8],
    fields: Vec<Field>,
}

impl<'a> HeadText<'a> {
    /// Everything that is refused with 3: the text, then the count of lines, then a name doubled that may not be. With the
    /// last two the place is the length taken (request #106: "For the other causes").
    fn judge(bytes: &'a [u8]) -> Result<Self, Refusal> {
        let head = HeadText::parse(bytes).ok_or_else(|| Refusal::head(place(bytes)))?;
        if head.fields.len() > MOST_FIELDS || head.has_wrong_double() {
            return Err(Refusal::head(bytes.len()));
        }
        Ok(head)
    }

    /// A status line and field lines up to the first CR LF CR LF, however many.
    fn parse(bytes: &'a [u8]) -> Option<Self> {
        let without_empty_line = bytes.strip_suffix(b"\r\n").filter(|_| bytes.ends_with(END))?;
        let lines = text::lines(without_empty_line);
        let (status_line, field_lines) = lines.split_first()?;
        if !is_status_line(&bytes[status_line.clone()]) {
            return None;
        }
        let mut fields = Vec::with_capacity(field_lines.len());
        for line in field_lines {
            let parsed = text::field_line(&bytes[line.clone()])?;
            fields.push(Field {
                name: line.start + parsed.name.start..line.start + parsed.name.end,
                value: line.start + parsed.value.start..line.start + parsed.value.end,
            });
        }
        Some(HeadText { bytes, fields })
    }

    fn has_wrong_double(&self) -> bool {
        let names = self.fields.iter().map(|field| self.name(field));
        let single: Vec<&[u8]> = names.filter(|name| !may_repeat(name)).collect();
        has_double(&single)
    }

    fn name(&self, field: &Field) -> &'a [u8] {
        &self.bytes[field.name.clone()]
    }

    /// The lines of that name, compared without case, in their order.
    fn lines_of<'s>(&'s self, name: &'s [u8]) -> impl Iterator<Item = &'s Field> {
        self.fields.iter().filter(move |field| self.name(field).eq_ignore_ascii_case(name))
    }

    /// The trimmed values of the lines of that name, in their order.
    fn values(&self, name: &[u8]) -> Vec<&'a [u8]> {
        self.lines_of(name).map(|field| &self.bytes[field.value.clone()]).collect()
    }

    /// The trimmed value of the first line of that name. The names that the rules below ask for in this way have no other line.
    fn value(&self, name: &[u8]) -> Option<&'a [u8]> {
        self.values(name).first().copied()
    }

    /// The three digits of the status line.
    fn status(&self) -> u16 {
        self.bytes[9..12].iter().fold(0, |number, &digit| number * 10 + u16::from(digit - b'0'))
    }

    /// What the fields say about the end of the show (#101).
    fn given(&self) -> Given {
        let mut given = Given::default();
        self.fields.iter().for_each(|field| given.add(self.name(field), &self.bytes[field.value.clone()]));
        given
    }
}

/// Whether these bytes are one head and have a good text. The fields are neither counted nor compared.
pub fn is_good(bytes: &[u8]) -> bool {
    HeadText::parse(bytes).is_some()
}

/// The URI that a head gives, if its text is good and it has one. Nobody has vouched for it.
pub fn uri(bytes: &[u8]) -> Option<&[u8]> {
    HeadText::parse(bytes)?.value(b"X-Ouinet-URI")
}

/// Where a whole head, CR LF CR LF included, went wrong: in its status line, or behind it.
fn place(bytes: &[u8]) -> usize {
    let status_line = text::find(bytes, b"\r\n").map_or(bytes.len(), |end| end + 2);
    let (front, fields) = bytes.split_at(status_line);
    let in_front = longest_beginning(front, &[b"HTTP/1.1 000 \r\n\r\n"], is_good);
    if in_front < front.len() {
        in_front
    } else {
        front.len() + trailer::place(fields)
    }
}

/// `HTTP/1.1`, space, three digits, space, reason ("Status line").
fn is_status_line(line: &[u8]) -> bool {
    line.len() >= 13
        && line.starts_with(b"HTTP/1.1 ")
        && line[9..12].iter().all(u8::is_ascii_digit)
        && line[12] == b' '
        && line[13..].iter().all(|&b| text::is_value_byte(b))
}

/// What the head rules of refusal 4 find, after the version ("Status 200" and all points below it).
struct Rules<'a> {
    signed_status: u16,
    part: Option<Part>,
    uri: &'a [u8],
    injection: Injection<'a>,
    bsigs: BSigs,
    sig0: Sig<'a>,
    /// What the list has after the two pseudo names, in its order.
    listed: Vec<Listed>,
}

impl<'a> Rules<'a> {
    fn check(text: &HeadText<'a>) -> Option<Self> {
        let signed_status = signed_status(text)?;
        let chunked = text.value(b"Transfer-Encoding")?.eq_ignore_ascii_case(b"chunked");
        let has_length = text.value(b"Content-Length").is_some();
        let uri = text.value(b"X-Ouinet-URI")?;
        if !chunked || has_length || uri.is_empty() {
            return None;
        }
        let injection = Injection::parse(text.value(b"X-Ouinet-Injection")?)?;
        let bsigs = BSigs::parse(text.value(b"X-Ouinet-BSigs")?)?;
        let part = if text.status() == part::STATUS { Some(part_of(text, bsigs.size)?) } else { None };
        let sig0 = Sig::parse(text.value(b"X-Ouinet-Sig0")?)?;
        let listed = listed_fields(text, sig0.headers)?;
        Some(Rules { signed_status, part, uri, injection, bsigs, sig0, listed })
    }
}

/// The status that was signed. A part answer says it in a field of its own, in other answers that is a field like any other.
fn signed_status(text: &HeadText) -> Option<u16> {
    if text.status() != part::STATUS {
        return Some(text.status()).filter(|status| STATUSES.contains(status));
    }
    let said = text.value(b"X-Ouinet-HTTP-Status")?;
    STATUSES.into_iter().find(|status| status.to_string().as_bytes() == said)
}

/// What the one `Content-Range` of a part answer says.
fn part_of(text: &HeadText, block_size: u32) -> Option<Part> {
    match text.values(b"Content-Range")[..] {
        [value] => Part::parse(value, block_size),
        _ => None,
    }
}

/// `id=` and an id, `,ts=` and a second ("X-Ouinet-Injection"). No blanks are allowed here.
struct Injection<'a> {
    id: &'a [u8],
    ts: u64,
}

impl<'a> Injection<'a> {
    fn parse(value: &'a [u8]) -> Option<Self> {
        let mut rest = Scan(value);
        rest.expect(b"id=")?;
        let id = rest.take_while(|b| b.is_ascii_alphanumeric() || b == b'-' || b == b'_');
        if id.is_empty() || id.len() > 64 {
            return None;
        }
        rest.expect(b",ts=")?;
        let ts = rest.decimal(12)?;
        rest.expect_end()?;
        Some(Injection { id, ts })
    }
}

/// `keyId`, `algorithm` and the size of a block ("X-Ouinet-BSigs").
struct BSigs {
    key: [u8; 32],
    size: u32,
}

impl BSigs {
    fn parse(value: &[u8]) -> Option<Self> {
        let mut rest = Scan(value);
        let key = key_and_algorithm(&mut rest)?;
        rest.comma()?;
        rest.expect(b"size=")?;
        let size = rest.decimal(5)?;
        rest.expect_end()?;
        if !(1..=MOST_BLOCK).contains(&size) {
            return None;
        }
        Some(BSigs { key, size: size as u32 })
    }
}

/// `keyId`, `algorithm`, `created`, `headers` and `signature`, in that order ("X-Ouinet-Sig0"). `X-Ouinet-Sig1` is "written as
/// Sig0" (#101). Of `headers` only the quotes are looked at here.
pub(crate) struct Sig<'a> {
    pub(crate) key: [u8; 32],
    pub(crate) created: &'a [u8],
    pub(crate) headers: &'a [u8],
    pub(crate) signature: [u8; 64],
}

impl<'a> Sig<'a> {
    pub(crate) fn parse(value: &'a [u8]) -> Option<Self> {
        let mut rest = Scan(value);
        let key = key_and_algorithm(&mut rest)?;
        rest.comma()?;
        rest.expect(b"created=")?;
        let created = rest.take_while(|b| b.is_ascii_digit());
        text::decimal(created, 12)?;
        rest.comma()?;
        rest.expect(b"headers=")?;
        let headers = rest.quoted()?;
        rest.comma()?;
        rest.expect(b"signature=")?;
        let signature = base64::decode_signature(rest.quoted()?)?;
        rest.expect_end()?;
        Some(Sig { key, created, headers, signature })
    }
}

/// `keyId="ed25519=K",algorithm="hs2019"`, the same in both fields.
fn key_and_algorithm(rest: &mut Scan) -> Option<[u8; 32]> {
    rest.expect(b"keyId=")?;
    let key = base64::decode_key(rest.quoted()?.strip_prefix(b"ed25519=")?)?;
    rest.comma()?;
    rest.expect(b"algorithm=\"hs2019\"")?;
    Some(key)
}

/// A listed name, in lower case, and the values of all lines that have it: one at least.
struct Listed {
    name: Vec<u8>,
    values: Vec<Range<usize>>,
}

impl Listed {
    fn find(text: &HeadText, name: &[u8]) -> Option<Self> {
        let values: Vec<Range<usize>> = text.lines_of(name).map(|field| field.value.clone()).collect();
        (!values.is_empty()).then(|| Listed { name: name.to_ascii_lowercase(), values })
    }

    /// Its line of the signing string, with a line feed before it. The values of a repeated field are joined "in order, with a
    /// comma and a space" (#102).
    fn line(&self, text: &HeadText) -> Vec<u8> {
        let values: Vec<&[u8]> = self.values.iter().map(|value| &text.bytes[value.clone()]).collect();
        signed_line(&self.name, &values.join(&b", "[..]))
    }

    fn handed_out(self) -> Signed {
        Signed { name: self.name, value: self.values[0].clone(), count: self.values.len() }
    }
}

/// The fields of the signed list after `(response-status)` and `(created)`, if the list keeps all
/// its rules ("headers"). Names are compared without case, the two pseudo names as well. A name stands in the list once for
/// all its lines.
fn listed_fields(text: &HeadText, list: &[u8]) -> Option<Vec<Listed>> {
    let names: Vec<&[u8]> = list.split(|&b| b == b' ').collect();
    if names.len() > MOST_LISTED || has_double(&names) {
        return None;
    }
    let (pseudo, real) = names.split_at_checked(2)?;
    let pseudo_is_right = pseudo.iter().zip(PSEUDO).all(|(name, due)| name.eq_ignore_ascii_case(due));
    let holds = |name: &[u8]| real.iter().any(|listed| listed.eq_ignore_ascii_case(name));
    let all_needed = holds(b"X-Ouinet-Version") && holds(b"X-Ouinet-URI") && holds(b"X-Ouinet-Injection");
    if !pseudo_is_right || !all_needed || holds(b"X-Ouinet-Sig0") {
        return None;
    }
    real.iter().map(|name| Listed::find(text, name)).collect()
}

fn has_double(names: &[&[u8]]) -> bool {
    names
        .iter()
        .enumerate()
        .any(|(number, name)| names[..number].iter().any(|earlier| earlier.eq_ignore_ascii_case(name)))
}

/// For each listed name: lower case, colon, space, value; a line feed between, none at the end
/// ("Signing string", below the list). The lines after the two pseudo names each have their line feed before them.
pub(crate) fn signing_string(status: u16, created: &[u8], lines: &[u8]) -> Vec<u8> {
    let [status_name, created_name] = PSEUDO;
    let status = status.to_string();
    [status_name, b": ", status.as_bytes(), &signed_line(created_name, created), lines].concat()
}

/// A line of the signing string that is not its first.
pub(crate) fn signed_line(name: &[u8], value: &[u8]) -> Vec<u8> {
    [b"\n", name, b": ", value].concat()
}
