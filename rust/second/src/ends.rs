//! The end of the show (request #101): a digest of the body, its size, and a signature `X-Ouinet-Sig1` over both and over what the
//! head's signature covers. Each of the three comes from the head or from the trailer, and all are judged at the trailer's end.

use crate::base64;
use crate::event::{Question, Refusal};
use crate::head::{self, Head, Sig};
use crate::text;
use crate::trailer;

/// The names of the three, in lower case.
const DIGEST: &[u8] = b"digest";
const SIZE: &[u8] = b"x-ouinet-data-size";
const SIG1: &[u8] = b"x-ouinet-sig1";
/// "1 to 10 digits".
const MOST_DIGITS: usize = 10;

/// All values that are given for each of the three, good or not, in the order in which they came.
#[derive(Debug, Clone, Default, PartialEq, Eq)]
pub struct Given {
    digests: Vec<Vec<u8>>,
    sizes: Vec<Vec<u8>>,
    sigs: Vec<Vec<u8>>,
}

impl Given {
    /// Takes a field of the head or the trailer. One of another name is none of the three.
    pub fn add(&mut self, name: &[u8], value: &[u8]) {
        let values = match &name.to_ascii_lowercase()[..] {
            DIGEST => &mut self.digests,
            SIZE => &mut self.sizes,
            SIG1 => &mut self.sigs,
            _ => return,
        };
        values.push(value.to_vec());
    }

    fn is_nothing(&self) -> bool {
        self.digests.is_empty() && self.sizes.is_empty() && self.sigs.is_empty()
    }
}

/// The only one of these.
fn single(values: &[Vec<u8>]) -> Option<&[u8]> {
    match values {
        [value] => Some(value),
        _ => None,
    }
}

/// What the three say, each given once and in good text.
struct Three<'a> {
    digest: &'a [u8],
    hash: [u8; 32],
    digits: &'a [u8],
    size: u64,
    sig: Sig<'a>,
}

impl<'a> Three<'a> {
    /// Nothing for all that is refused with 13.
    fn read(given: &'a Given, head: &Head) -> Option<Self> {
        let digest = single(&given.digests)?;
        let digits = single(&given.sizes)?;
        let sig = Sig::parse(single(&given.sigs)?)?;
        let hash = base64::decode_key(digest.strip_prefix(b"SHA-256=")?)?;
        let size = text::decimal(digits, MOST_DIGITS)?;
        is_list(sig.headers, head).then_some(Three { digest, hash, digits, size, sig })
    }
}

/// Whether this is, without case, "Sig0's list with `digest` and `x-ouinet-data-size` added at its end", and Sig0's list has neither.
fn is_list(list: &[u8], head: &Head) -> bool {
    let added = [DIGEST, SIZE];
    if added.iter().any(|name| head.signed(name).is_some()) {
        return false;
    }
    let due = head.listed().chain(added);
    list.split(|&byte| byte == b' ').map(<[u8]>::to_ascii_lowercase).eq(due.map(<[u8]>::to_vec))
}

/// What a good trailer's end comes to.
pub enum End {
    /// None of the three was given, or it is a part answer.
    Closed,
    /// The show is complete if the answer is yes.
    Asked(Question),
}

/// Judges the end of a stream with this head and this trailer, whose text is good. The total is that of the bytes released, and
/// `hash` gives their SHA-256, which is only asked for where it matters. Of a part answer nothing of this is looked at, even where it has all
/// bytes of its show: "The end checks of #101 are skipped" (request #104).
pub fn judge(head: &Head, trailer: &[u8], total: u64, hash: impl FnOnce() -> [u8; 32]) -> Result<End, Refusal> {
    if head.part.is_some() {
        return Ok(End::Closed);
    }
    let mut given = head.given.clone();
    trailer::fields(trailer).for_each(|(name, value)| given.add(name, value));
    if given.is_nothing() {
        return Ok(End::Closed);
    }
    let three = Three::read(&given, head).ok_or(Refusal::plain(13))?;
    if three.size != total {
        return Err(Refusal::plain(14));
    }
    if three.hash != hash() {
        return Err(Refusal::plain(15));
    }
    // The ring was read when the head was judged, so the key has to be the one that was found then
    if three.sig.key != head.key {
        return Err(Refusal::plain(12));
    }
    let message = signing_string(head, &three);
    Ok(End::Asked(Question { message, signature: three.sig.signature, record: head.record }))
}

/// As for the head's signature, with Sig1's own `created`. The names that both lists have take the head's values, and none from the
/// trailer.
fn signing_string(head: &Head, three: &Three) -> Vec<u8> {
    let mut out = head::signing_string(head.signed_status, three.sig.created, &head.signed_lines);
    for (name, value) in [(DIGEST, three.digest), (SIZE, three.digits)] {
        out.extend(head::signed_line(name, value));
    }
    out
}
