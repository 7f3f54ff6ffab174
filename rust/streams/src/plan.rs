//! What an honest stream is made from, and how it is built: head, chunk lines, data, data ends and
//! trailer as separate parts, each with the lines that a reader writes when the part is whole and
//! all answers are yes.

use crate::base64;
use crate::end;
use crate::head::{Field, Head};
use crate::sodium::{self, Signer};

/// A record of the key ring.
#[derive(Clone)]
pub struct RingRecord {
    pub key: [u8; 32],
    pub first: u64,
    pub last: u64,
}

/// The text of a ring's file.
pub fn ring_text(ring: &[RingRecord]) -> Vec<u8> {
    let mut out = Vec::new();
    for record in ring {
        out.extend(base64::encode(&record.key));
        out.extend(format!(" {} {}\n", record.first, record.last).bytes());
    }
    out
}

/// How a chunk size is written.
#[derive(Clone, Copy)]
pub enum SizeStyle {
    Lower,
    Upper,
    /// With leading zeros up to so many digits, letters of both cases.
    Padded(usize),
}

impl SizeStyle {
    pub fn write(self, size: usize) -> Vec<u8> {
        match self {
            SizeStyle::Lower => format!("{size:x}").into_bytes(),
            SizeStyle::Upper => format!("{size:X}").into_bytes(),
            SizeStyle::Padded(digits) => {
                let mut text = format!("{size:0digits$x}").into_bytes();
                text.iter_mut().step_by(2).for_each(|digit| digit.make_ascii_uppercase());
                text
            }
        }
    }
}

/// All that an honest stream is made from. The fields are all fields of the head in their order;
/// the values of `X-Ouinet-BSigs` and `X-Ouinet-Sig0` are filled in when it is built.
#[derive(Clone)]
pub struct Plan {
    pub signer: Signer,
    pub status: Vec<u8>,
    pub reason: Vec<u8>,
    pub fields: Vec<Field>,
    /// The two pseudo names as written, with a space between.
    pub pseudo: Vec<u8>,
    /// The signed list without the two pseudo names, as written.
    pub listed: Vec<Vec<u8>>,
    pub id: Vec<u8>,
    pub created: Vec<u8>,
    /// The blanks after the commas: two in `X-Ouinet-BSigs`, then four in `X-Ouinet-Sig0`.
    pub gaps: [Vec<u8>; 6],
    pub block_size: usize,
    pub blocks: Vec<Vec<u8>>,
    pub sizes: SizeStyle,
    /// The whole trailer with its end.
    pub trailer: Vec<u8>,
    pub ring: Vec<RingRecord>,
}

#[derive(Clone, Copy, PartialEq, Eq, Debug)]
pub enum Kind {
    Head,
    /// A chunk line that announces a block.
    Line,
    /// The line of size 0.
    ZeroLine,
    Data,
    DataEnd,
    Trailer,
}

/// A part of a stream and what a reader writes once it is whole.
#[derive(Clone)]
pub struct Part {
    pub kind: Kind,
    pub bytes: Vec<u8>,
    pub lines: Vec<String>,
}

/// What a body starts from: the beginning of a show, unless it is that of a part answer.
#[derive(Default)]
pub(crate) struct Start {
    /// The offset that is signed for the first block, and the one that a reader takes it to have.
    pub offset: u64,
    pub said: u64,
    /// The hash of the block before; nothing where there is none.
    pub hash: Vec<u8>,
    /// What the first line has behind its size.
    pub extension: Vec<u8>,
}

/// A stream in parts.
#[derive(Clone)]
pub struct Built {
    pub head: Head,
    pub parts: Vec<Part>,
    pub body: Vec<u8>,
    pub ring: Vec<RingRecord>,
    /// The URI to ask for.
    pub uri: Vec<u8>,
    /// Whether the signature over the whole show is right, if a reader asks about it.
    pub end_is_signed: bool,
}

/// A stream, what a reader is given beside it, and the lines that it then writes, all yes. The body is the one that was signed.
pub struct Known {
    pub stream: Vec<u8>,
    pub ring: Vec<RingRecord>,
    pub uri: Vec<u8>,
    pub lines: Vec<String>,
    pub body: Vec<u8>,
    pub end_is_signed: bool,
}

impl Built {
    /// These bytes in place of the stream's own, and the lines that a reader writes for them.
    pub fn known(&self, stream: Vec<u8>, lines: Vec<String>) -> Known {
        Known {
            stream,
            ring: self.ring.clone(),
            uri: self.uri.clone(),
            lines,
            body: self.body.clone(),
            end_is_signed: self.end_is_signed,
        }
    }

    pub fn bytes(&self) -> Vec<u8> {
        self.parts.iter().flat_map(|part| part.bytes.iter().copied()).collect()
    }

    /// What a reader writes before the part of that number, all yes.
    pub fn lines_before(&self, part: usize) -> Vec<String> {
        self.parts[..part].iter().flat_map(|part| part.lines.iter().cloned()).collect()
    }

    /// What a reader writes for the whole stream, all yes.
    pub fn lines(&self) -> Vec<String> {
        self.lines_before(self.parts.len())
    }

    /// What a reader writes when only so many bytes come and then the end, all yes.
    pub fn lines_of_beginning(&self, length: usize) -> Vec<String> {
        let mut end = 0;
        for (number, part) in self.parts.iter().enumerate() {
            end += part.bytes.len();
            if end > length {
                let mut lines = self.lines_before(number);
                lines.push("refused 11".to_string());
                return lines;
            }
        }
        self.lines()
    }

    /// Has a reader refuse the part of that number, and so write nothing more.
    pub(crate) fn refuse(&mut self, part: usize, number: u8) {
        self.parts[part..].iter_mut().for_each(|part| part.lines.clear());
        self.parts[part].lines.push(format!("refused {number}"));
    }

    /// The numbers of the parts of a kind.
    pub fn places(&self, kind: Kind) -> Vec<usize> {
        (0..self.parts.len()).filter(|&number| self.parts[number].kind == kind).collect()
    }
}

/// Cuts a body into blocks of this size, the last one shorter if need be.
pub fn blocks_of(body: &[u8], block_size: usize) -> Vec<Vec<u8>> {
    body.chunks(block_size).map(<[u8]>::to_vec).collect()
}

impl Plan {
    pub fn field(&mut self, name: &str) -> &mut Field {
        let found = self.fields.iter_mut().find(|field| field.name.eq_ignore_ascii_case(name.as_bytes()));
        found.unwrap_or_else(|| panic!("the plan has no field {name}"))
    }

    /// How many bytes the head has.
    pub fn head_length(&self) -> usize {
        self.build().parts[0].bytes.len()
    }

    /// Makes the head so long by the value of its last field.
    pub fn lengthen_last(&mut self, length: usize) {
        let lacking = length - self.head_length();
        self.fields.last_mut().expect("a field").value.extend(b"p".repeat(lacking));
    }

    /// The value of the URI's field; nothing if there is no such field.
    pub fn uri(&self) -> Vec<u8> {
        let found = self.fields.iter().find(|field| field.name.eq_ignore_ascii_case(b"X-Ouinet-URI"));
        found.map_or(Vec::new(), |field| field.value.clone())
    }

    pub fn add(&mut self, name: &str, value: &[u8]) {
        self.fields.push(Field::new(name, value));
    }

    pub fn list(&mut self, name: &str) {
        self.listed.push(name.as_bytes().to_vec());
    }

    /// Sets the id and the second in the injection field.
    pub fn set_injection(&mut self, id: &[u8], ts: &[u8]) {
        self.id = id.to_vec();
        self.field("X-Ouinet-Injection").value = [b"id=", id, b",ts=", ts].concat();
    }

    fn bsigs(&self) -> Vec<u8> {
        let size = self.block_size.to_string();
        let [gap_1, gap_2, ..] = &self.gaps;
        [&key_id(&self.signer)[..], b",", gap_1, b"algorithm=\"hs2019\",", gap_2, b"size=", size.as_bytes()].concat()
    }

    /// The lines of the text that the head's signature covers, or the beginning of those of Sig1's with its own `created`, with the
    /// values of a name's lines made one by `join`. A listed name that is no field stands for nothing, so that lists can be broken.
    pub(crate) fn signed_lines(&self, created: &[u8], fields: &[Field], join: &Join) -> Vec<Vec<u8>> {
        let mut lines = vec![[b"(response-status): ", &self.status[..]].concat(), [b"(created): ", created].concat()];
        for name in &self.listed {
            let same = fields.iter().filter(|field| field.name.eq_ignore_ascii_case(name));
            let values: Vec<&[u8]> = same.map(|field| &field.value[..]).collect();
            if !values.is_empty() {
                lines.push([&name.to_ascii_lowercase()[..], b": ", &join(&values)].concat());
            }
        }
        lines
    }

    fn signing_string(&self, fields: &[Field], join: &Join) -> Vec<u8> {
        self.signed_lines(&self.created, fields, join).join(&b'\n')
    }

    /// The fields of the head as it is sent.
    pub(crate) fn sent_fields(&self) -> Vec<Field> {
        self.build_head(&joined).0.fields
    }

    /// The signed list without its quotes.
    pub(crate) fn list_text(&self) -> Vec<u8> {
        let names = std::iter::once(&self.pseudo).chain(&self.listed);
        names.map(|name| &name[..]).collect::<Vec<_>>().join(&b' ')
    }

    /// Builds the head, signed over the text that `join` makes; also gives the length of the text
    /// that it should cover.
    fn build_head(&self, join: &Join) -> (Head, usize) {
        let mut head = Head {
            status_line: [b"HTTP/1.1 ", &self.status[..], b" ", &self.reason].concat(),
            fields: self.fields.clone(),
        };
        head.set("X-Ouinet-BSigs", &self.bsigs());
        let due = self.signing_string(&head.fields, &joined).len();
        let message = self.signing_string(&head.fields, join);
        let [_, _, gaps @ ..] = &self.gaps;
        head.set("X-Ouinet-Sig0", &signature_field(&self.signer, &self.created, &self.list_text(), gaps, &message));
        (head, due)
    }

    /// Builds the whole stream.
    pub fn build(&self) -> Built {
        self.build_signed_over(&joined)
    }

    /// Builds the whole stream, the head signed with the values of a name's lines joined in this way.
    pub fn build_signed_over(&self, join: &Join) -> Built {
        let (head, asked) = self.build_head(join);
        let status = String::from_utf8_lossy(&self.status);
        let mut parts = vec![Part {
            kind: Kind::Head,
            bytes: head.bytes(),
            lines: vec![format!("question {asked}"), format!("head {status}")],
        }];
        parts.extend(self.body_parts(Start::default()));
        let body = self.blocks.concat();
        let last = end::reckon(self, &head.fields, &body);
        parts.push(Part { kind: Kind::Trailer, bytes: self.trailer.clone(), lines: last.lines(body.len()) });
        Built { head, parts, body, ring: self.ring.clone(), uri: self.uri(), end_is_signed: last.is_signed() }
    }

    /// Lines, data and data ends of all blocks, and the 0 line. Each line after a block has its signature.
    pub(crate) fn body_parts(&self, start: Start) -> Vec<Part> {
        let Start { mut offset, mut said, mut hash, mut extension } = start;
        let (mut parts, mut lines) = (Vec::new(), Vec::new());
        for block in &self.blocks {
            parts.push(self.line(Kind::Line, block.len(), &extension, std::mem::take(&mut lines)));
            parts.push(Part { kind: Kind::Data, bytes: block.clone(), lines: Vec::new() });
            parts.push(Part { kind: Kind::DataEnd, bytes: b"\r\n".to_vec(), lines: Vec::new() });
            hash = sodium::sha512(&[&hash[..], block].concat()).to_vec();
            let message = block_message(&self.id, offset, &hash);
            extension = [b";ouisig=", &base64::encode(&self.signer.sign(&message))[..]].concat();
            let asked = block_message(&self.id, said, &hash).len();
            lines = vec![format!("question {asked}"), format!("block {said} {}", block.len())];
            (offset, said) = (offset + self.block_size as u64, said + self.block_size as u64);
        }
        parts.push(self.line(Kind::ZeroLine, 0, &extension, lines));
        parts
    }

    fn line(&self, kind: Kind, size: usize, extension: &[u8], lines: Vec<String>) -> Part {
        Part { kind, bytes: [&self.sizes.write(size)[..], extension, b"\r\n"].concat(), lines }
    }
}

fn key_id(signer: &Signer) -> Vec<u8> {
    [b"keyId=\"ed25519=", &base64::encode(&signer.public)[..], b"\""].concat()
}

/// The value of `X-Ouinet-Sig0`, or of `X-Ouinet-Sig1`, with these blanks after its commas, signed over the message.
pub(crate) fn signature_field(
    signer: &Signer,
    created: &[u8],
    list: &[u8],
    gaps: &[Vec<u8>; 4],
    message: &[u8],
) -> Vec<u8> {
    let [gap_1, gap_2, gap_3, gap_4] = gaps;
    [
        &key_id(signer)[..],
        b",",
        gap_1,
        b"algorithm=\"hs2019\",",
        gap_2,
        b"created=",
        created,
        b",",
        gap_3,
        b"headers=\"",
        list,
        b"\",",
        gap_4,
        b"signature=\"",
        &base64::encode(&signer.sign(message)),
        b"\"",
    ]
    .concat()
}

/// How the values of a name's lines are made one.
pub type Join = dyn Fn(&[&[u8]]) -> Vec<u8>;

/// The right way: in order, with a comma and a space between (request #102).
pub(crate) fn joined(values: &[&[u8]]) -> Vec<u8> {
    values.join(&b", "[..])
}

/// What a block's signature covers.
pub fn block_message(id: &[u8], offset: u64, hash: &[u8]) -> Vec<u8> {
    [id, b"\0", offset.to_string().as_bytes(), b"\0", hash].concat()
}
