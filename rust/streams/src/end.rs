//! The end of a show (request #101): how the three fields about it are written and signed, and what a reader must say at the
//! trailer's end. That is reckoned from what the stream was built from and from libsodium's hash; signatures are known to be right by
//! signing again.

use crate::base64;
use crate::head::Field;
use crate::plan::{joined, signature_field, Join, Plan};
use crate::random::{change_case, trimmed, BLANKS};
use crate::rng::Rng;
use crate::sodium::{Sha256, Signer};

pub const DIGEST: &str = "Digest";
pub const SIZE: &str = "X-Ouinet-Data-Size";
pub const SIG1: &str = "X-Ouinet-Sig1";
/// The three in the order of the request.
pub const NAMES: [&str; 3] = [DIGEST, SIZE, SIG1];
/// What Sig1's list has behind that of the head.
const ADDED: &[u8] = b" digest x-ouinet-data-size";

/// The value of a digest's field.
pub fn digest(body: &[u8]) -> Vec<u8> {
    let mut hash = Sha256::default();
    hash.update(body);
    [b"SHA-256=", &base64::encode(&hash.finish())[..]].concat()
}

/// What is said about the end of a show, before it is signed.
#[derive(Clone)]
pub struct End {
    pub signer: Signer,
    pub digest: Vec<u8>,
    pub size: Vec<u8>,
    pub created: Vec<u8>,
    /// The list as it is written.
    pub list: Vec<u8>,
    /// The blanks after the commas of Sig1.
    pub gaps: [Vec<u8>; 4],
    /// Which of the three stand in the head.
    pub in_head: [bool; 3],
}

impl End {
    /// The right one for a plan as it is, in the trailer.
    pub fn of(plan: &Plan) -> Self {
        let body = plan.blocks.concat();
        End {
            signer: plan.signer.clone(),
            digest: digest(&body),
            size: body.len().to_string().into_bytes(),
            created: plan.created.clone(),
            list: [&plan.list_text()[..], ADDED].concat(),
            gaps: Default::default(),
            in_head: [false; 3],
        }
    }

    /// The text that Sig1 covers, with the values of a name's lines in the head made one by `join`.
    pub fn message(&self, plan: &Plan, join: &Join) -> Vec<u8> {
        message(plan, &self.created, &plan.sent_fields(), [&self.digest, &self.size], join)
    }

    /// The three fields, signed as they must be.
    pub fn signed(&self, plan: &Plan) -> Written {
        self.signed_over(&self.message(plan, &joined))
    }

    /// The three fields, signed over any text.
    pub fn signed_over(&self, message: &[u8]) -> Written {
        let sig1 = signature_field(&self.signer, &self.created, &self.list, &self.gaps, message);
        let values = [self.digest.clone(), self.size.clone(), sig1];
        let mut written = Written::default();
        for ((name, value), in_head) in NAMES.into_iter().zip(values).zip(self.in_head) {
            written.side(in_head).push(Field::new(name, value));
        }
        written
    }

    /// Puts the three into the plan, signed as they must be for the plan as it is.
    pub fn put(&self, plan: &mut Plan) {
        self.signed(plan).put(plan);
    }
}

fn message(plan: &Plan, created: &[u8], fields: &[Field], [digest, size]: [&[u8]; 2], join: &Join) -> Vec<u8> {
    let mut lines = plan.signed_lines(created, fields, join);
    lines.push([b"digest: ", digest].concat());
    lines.push([b"x-ouinet-data-size: ", size].concat());
    lines.join(&b'\n')
}

/// The fields about the end, for the head and for the trailer.
#[derive(Clone, Default)]
pub struct Written {
    pub head: Vec<Field>,
    pub trailer: Vec<Field>,
}

impl Written {
    pub fn side(&mut self, in_head: bool) -> &mut Vec<Field> {
        if in_head {
            &mut self.head
        } else {
            &mut self.trailer
        }
    }

    /// The field of that name, wherever it stands.
    pub fn field(&mut self, name: &str) -> &mut Field {
        let found = self.head.iter_mut().chain(&mut self.trailer).find(|field| is_named(field, name));
        found.unwrap_or_else(|| panic!("the end has no field {name}"))
    }

    pub fn drop_field(&mut self, name: &str) {
        self.head.retain(|field| !is_named(field, name));
        self.trailer.retain(|field| !is_named(field, name));
    }

    /// Adds them behind the head's own fields, and before those of the trailer.
    pub fn put(self, plan: &mut Plan) {
        plan.fields.extend(self.head);
        let lines: Vec<u8> = self.trailer.iter().flat_map(Field::line).collect();
        plan.trailer.splice(0..0, lines);
    }

    /// The same at any places of the head and the trailer.
    pub fn scatter(self, plan: &mut Plan, rng: &mut Rng) {
        for field in self.head {
            let place = rng.below(plan.fields.len() + 1);
            plan.fields.insert(place, field);
        }
        for field in self.trailer {
            let starts = line_starts(&plan.trailer);
            let place = *rng.pick(&starts);
            plan.trailer.splice(place..place, field.line());
        }
    }

    /// Names in any case, and blanks at the values' ends.
    pub fn disguise(&mut self, rng: &mut Rng) {
        for field in self.head.iter_mut().chain(&mut self.trailer) {
            change_case(&mut field.name, rng);
            (field.left, field.right) = (rng.pick(&BLANKS).to_vec(), rng.pick(&BLANKS).to_vec());
        }
    }
}

pub(crate) fn is_named(field: &Field, name: &str) -> bool {
    field.name.eq_ignore_ascii_case(name.as_bytes())
}

/// Where the lines of a good trailer start, the empty one at its end included.
fn line_starts(trailer: &[u8]) -> Vec<usize> {
    let ends = (1..trailer.len()).filter(|&place| trailer[place - 1] == b'\n');
    std::iter::once(0).chain(ends).collect()
}

/// The fields of a good trailer.
fn trailer_fields(trailer: &[u8]) -> Vec<Field> {
    let lines = trailer.split(|&byte| byte == b'\n').map(|line| line.strip_suffix(b"\r").unwrap_or(line));
    let field = |line: &[u8]| {
        let colon = line.iter().position(|&byte| byte == b':')?;
        Some(Field::new(&line[..colon], trimmed(line[colon + 1..].to_vec())))
    };
    lines.take_while(|line| !line.is_empty()).filter_map(field).collect()
}

/// What a reader must say at a good trailer's end, all yes.
pub enum Last {
    Closed,
    Refused(u8),
    Complete {
        /// The length of the message that is asked about.
        asked: usize,
        /// Whether it is what was signed.
        is_signed: bool,
    },
}

impl Last {
    pub fn lines(&self, total: usize) -> Vec<String> {
        match self {
            Last::Closed => vec![format!("closed {total}")],
            Last::Refused(number) => vec![format!("refused {number}")],
            Last::Complete { asked, .. } => vec![format!("question {asked}"), format!("complete {total}")],
        }
    }

    /// Whether nothing that is asked is signed wrongly.
    pub fn is_signed(&self) -> bool {
        !matches!(self, Last::Complete { is_signed: false, .. })
    }
}

/// What comes of a plan's end, with these fields in the head that was built and this body.
pub fn reckon(plan: &Plan, head: &[Field], body: &[u8]) -> Last {
    let trailer = trailer_fields(&plan.trailer);
    let values = |name: &str| -> Vec<&[u8]> {
        head.iter().chain(&trailer).filter(|field| is_named(field, name)).map(|field| &field.value[..]).collect()
    };
    let given = NAMES.map(values);
    if given.iter().all(Vec::is_empty) {
        return Last::Closed;
    }
    let ([said_digest], [said_size], [said_sig1]) = (&given[0][..], &given[1][..], &given[2][..]) else {
        return Last::Refused(13);
    };
    let Some(sig1) = Sig1::of(said_sig1).filter(|sig1| sig1.fits(plan)) else { return Last::Refused(13) };
    if !is_digest(said_digest) || !is_number(said_size, 10) {
        return Last::Refused(13);
    }
    // Both have but one text for a value
    if *said_size != body.len().to_string().as_bytes() {
        return Last::Refused(14);
    }
    if *said_digest != digest(body) {
        return Last::Refused(15);
    }
    if sig1.key != base64::encode(&plan.signer.public) {
        return Last::Refused(12);
    }
    let message = message(plan, &sig1.created, head, [said_digest, said_size], &joined);
    let is_signed = sig1.signature == base64::encode(&plan.signer.sign(&message));
    Last::Complete { asked: message.len(), is_signed }
}

fn is_digest(text: &[u8]) -> bool {
    text.strip_prefix(b"SHA-256=").is_some_and(|letters| base64::is_of(letters, 32))
}

/// Whether this is a number of at most so many digits, without a leading zero unless it is `0`.
pub(crate) fn is_number(text: &[u8], most: usize) -> bool {
    let is_short = (1..=most).contains(&text.len());
    is_short && text.iter().all(u8::is_ascii_digit) && (text == b"0" || text[0] != b'0')
}

/// The parameters of a good Sig1 as they are written.
struct Sig1 {
    key: Vec<u8>,
    created: Vec<u8>,
    list: Vec<u8>,
    signature: Vec<u8>,
}

impl Sig1 {
    /// What stands outside of the quotes has one form, the blanks after commas left out; so it is compared by pieces.
    fn of(value: &[u8]) -> Option<Self> {
        let pieces: Vec<Vec<u8>> = value.split(|&byte| byte == b'"').map(<[u8]>::to_vec).collect();
        let [key_id, key, algorithm, hs2019, created, list, before, signature, behind] = &pieces[..] else {
            return None;
        };
        let outside = [key_id, algorithm, created, before, behind].map(|piece| without_gaps(piece));
        let created = outside[2].strip_prefix(b",created=")?.strip_suffix(b",headers=")?;
        let key = key.strip_prefix(b"ed25519=")?;
        let is_written = outside[0] == b"keyId="
            && outside[1] == b",algorithm="
            && outside[3] == b",signature="
            && outside[4].is_empty()
            && hs2019 == b"hs2019"
            && base64::is_of(key, 32)
            && base64::is_of(signature, 64)
            && is_number(created, 12);
        is_written.then(|| Sig1 {
            key: key.to_vec(),
            created: created.to_vec(),
            list: list.clone(),
            signature: signature.clone(),
        })
    }

    /// Whether its list is that of the plan's head and the two names, and the head's has neither of them.
    fn fits(&self, plan: &Plan) -> bool {
        let is_added = |name: &Vec<u8>| [DIGEST, SIZE].iter().any(|added| name.eq_ignore_ascii_case(added.as_bytes()));
        !plan.listed.iter().any(is_added) && self.list.eq_ignore_ascii_case(&[&plan.list_text()[..], ADDED].concat())
    }
}

/// The text without the spaces and tabs that come right after a comma.
fn without_gaps(text: &[u8]) -> Vec<u8> {
    let mut out: Vec<u8> = Vec::new();
    let mut after_comma = false;
    for &byte in text {
        after_comma = byte == b',' || after_comma && (byte == b' ' || byte == b'\t');
        if !after_comma || byte == b',' {
            out.push(byte);
        }
    }
    out
}
