//! Names, texts and small edits that the broken rules are made with.

use crate::base64;
use crate::head::{Field, Head};
use crate::plan::Plan;
use crate::sodium::Signer;

pub const VERSION: &str = "X-Ouinet-Version";
pub const URI: &str = "X-Ouinet-URI";
pub const INJECTION: &str = "X-Ouinet-Injection";
pub const BSIGS: &str = "X-Ouinet-BSigs";
pub const SIG0: &str = "X-Ouinet-Sig0";
pub const CODING: &str = "Transfer-Encoding";

/// Lines that are no field lines, without their CR LF, and where each goes wrong.
pub const ODD_LINES: [(&[u8], usize); 36] = [
    (b":", 0),
    (b": x", 0),
    (b"A : x", 1),
    (b"A\t: x", 1),
    (b" A: x", 0),
    (b"\tA: x", 0),
    (b" ", 0),
    (b"A", 1),
    (b"no colon here", 2),
    (b"A b: x", 1),
    (b"A(: x", 1),
    (b"A): x", 1),
    (b"A\x80: x", 1),
    (b"\xffA: x", 0),
    (b"A\"b: x", 1),
    (b"A/b: x", 1),
    (b"A@b: x", 1),
    (b"A,b: x", 1),
    (b"A;b: x", 1),
    (b"A=b: x", 1),
    (b"A<b: x", 1),
    (b"A>b: x", 1),
    (b"A?b: x", 1),
    (b"A[b: x", 1),
    (b"A]b: x", 1),
    (b"A\\b: x", 1),
    (b"A{b: x", 1),
    (b"A}b: x", 1),
    (b"A\0: x", 1),
    (b"A: x\0y", 4),
    (b"A: \x01", 3),
    (b"A: x\x1f", 4),
    (b"A: x\x7fy", 4),
    (b"A: x\ny", 4),
    (b"A: x\ry", 5),
    (b"A: x\r", 5),
];

pub type TextEdit = fn(&[u8]) -> Vec<u8>;

/// Ways to spoil the 44 characters of a key.
pub const KEY_EDITS: [(&str, TextEdit); 10] = [
    ("43 characters", |key| key[1..].to_vec()),
    ("45 characters", |key| [b"A", key].concat()),
    ("48 characters", |key| [b"AAAA", key].concat()),
    ("the lowest spare bit set", |key| spare_bit(key, 1)),
    ("the highest spare bit set", |key| spare_bit(key, 2)),
    ("a letter of the other alphabet", |key| [b"-", &key[1..]].concat()),
    ("a space inside", |key| [&key[..20], b" ", &key[21..]].concat()),
    ("padding inside", |key| [&key[..3], b"=", &key[4..]].concat()),
    ("padding inside and none at the end", |key| [b"AAA=", &key[4..43], b"A"].concat()),
    ("a byte of 128", |key| [b"\x80", &key[1..]].concat()),
];

/// Ways to spoil the 88 characters of a signature, and where each goes wrong.
pub const SIGNATURE_EDITS: [(&str, TextEdit, usize); 13] = [
    ("87 characters", |text| text[1..].to_vec(), 85),
    ("89 characters", |text| [&text[..85], b"A", &text[85..]].concat(), 86),
    ("84 characters", |text| text[4..].to_vec(), 82),
    ("92 characters", |text| [&text[..85], b"AAAA", &text[85..]].concat(), 86),
    ("no padding", |text| text[..86].to_vec(), 86),
    ("one padding sign", |text| [&text[..86], b"A="].concat(), 86),
    ("padding replaced by letters", |text| [&text[..86], b"AA"].concat(), 86),
    ("the lowest spare bit set", |text| spare_bit(text, 1), 85),
    ("the highest spare bit set", |text| spare_bit(text, 8), 85),
    ("a letter of the other alphabet", |text| [b"_", &text[1..]].concat(), 0),
    ("a space inside", |text| [&text[..40], b" ", &text[41..]].concat(), 40),
    ("padding inside", |text| [&text[..2], b"==", &text[4..]].concat(), 2),
    ("padding inside and none at the end", |text| [b"AA==", &text[4..86], b"AA"].concat(), 2),
];

/// Texts of a signature field that are replaced, so that its key or its algorithm is written wrongly.
pub const KEY_AND_ALGORITHM_EDITS: [(&str, &str); 33] = [
    ("keyId", "keyid"),
    ("keyId", "KeyId"),
    ("keyId=", "keyId ="),
    ("keyId=", "keyId= "),
    ("keyId=", ""),
    ("\"ed25519=", "\"Ed25519="),
    ("\"ed25519=", "\"ed25519:"),
    ("\"ed25519=", "\" ed25519="),
    ("\"ed25519=", "\"rsa="),
    ("\"ed25519=", "\""),
    ("\"ed25519=", "ed25519="),
    ("=\",", "= \","),
    ("=\",", "\","),
    ("=\",", "==\","),
    ("=\",", "A\","),
    ("=\",", "=,"),
    ("=\",", "=\" ,"),
    ("=\",", "=\""),
    ("=\",", "=\",,"),
    ("algorithm", "Algorithm"),
    ("algorithm=", "algorithm ="),
    ("algorithm=", "algorithm= "),
    ("hs2019", "hs2020"),
    ("hs2019", "HS2019"),
    ("hs2019", " hs2019"),
    ("hs2019", "hs2019 "),
    ("hs2019", ""),
    ("\"hs2019\"", "hs2019"),
    ("\"hs2019\"", "\"hs2019\" "),
    ("\"hs2019\",", "\"hs2019\";"),
    ("\"hs2019\",", "\"hs2019\",,"),
    ("\"hs2019\",", "\"hs2019\",x=1,"),
    ("\"hs2019\",", "\"hs2019\""),
];

/// The same for the other parameters of `X-Ouinet-Sig0`, and of Sig1, which is written alike.
pub const SIG_EDITS: [(&str, &str); 18] = [
    ("created=", "Created="),
    ("created=", "created ="),
    ("created=", "expires=1,created="),
    ("headers=", "Headers="),
    ("headers=", "headers ="),
    ("headers=\"", "headers= \""),
    ("headers=\"", "headers="),
    ("signature=", "Signature="),
    ("signature=", "sig="),
    ("signature=\"", "signature= \""),
    ("signature=\"", "signature=\" "),
    ("signature=\"", "signature="),
    ("==\"", "==\"\""),
    ("==\"", "== \""),
    ("==\"", "=="),
    ("==\"", "\""),
    ("==\"", "=\""),
    ("==\"", "===\""),
];

/// The last letter before the padding with one of its spare bits set.
pub fn spare_bit(text: &[u8], bit: usize) -> Vec<u8> {
    let letters = b"ABCDEFGHIJKLMNOPQRSTUVWXYZabcdefghijklmnopqrstuvwxyz0123456789+/";
    let last = text.iter().rposition(|&byte| byte != b'=').unwrap_or(0);
    let value = letters.iter().position(|&letter| letter == text[last]).unwrap_or(0);
    let mut out = text.to_vec();
    out[last] = letters[value + bit];
    out
}

pub fn find(bytes: &[u8], text: &[u8]) -> usize {
    bytes.windows(text.len()).position(|window| window == text).expect("the text is there")
}

pub fn swapped_case(name: &[u8]) -> Vec<u8> {
    name.iter().map(|&byte| if byte.is_ascii_alphabetic() { byte ^ 32 } else { byte }).collect()
}

pub fn drop_both(plan: &mut Plan, name: &str) {
    plan.fields.retain(|field| !field.name.eq_ignore_ascii_case(name.as_bytes()));
    plan.listed.retain(|listed| !listed.eq_ignore_ascii_case(name.as_bytes()));
}

/// The second in the plan's injection field.
pub fn second(plan: &mut Plan) -> u64 {
    let value = String::from_utf8_lossy(&plan.field(INJECTION).value).into_owned();
    value.split("ts=").nth(1).and_then(|digits| digits.parse().ok()).expect("a second")
}

pub fn set_spans(plan: &mut Plan, first: u64, last: u64) {
    for record in &mut plan.ring {
        record.first = first;
        record.last = last;
    }
}

/// Puts another key into a signature field.
pub fn set_key(head: &mut Head, name: &str, signer: &Signer) {
    let value = &mut head.field(name).value;
    let start = find(value, b"ed25519=") + 8;
    *value = [&value[..start], &base64::encode(&signer.public), &value[start + 44..]].concat();
}

/// Adds fields until the head has so many.
pub fn fill_fields(head: &mut Head, count: usize) {
    while head.fields.len() < count {
        head.fields.push(Field::new(format!("Filler-{}", head.fields.len()), ""));
    }
}

/// How many digits a line starts with.
pub fn digits(line: &[u8]) -> usize {
    line.iter().take_while(|byte| byte.is_ascii_hexdigit()).count()
}

/// A line with this size and some good signature.
pub fn signed_line(size: &[u8]) -> Vec<u8> {
    [size, b";ouisig=", &base64::encode(&[7; 64]), b"\r\n"].concat()
}

/// The line without its signature.
pub fn unsigned_line(line: &[u8]) -> Vec<u8> {
    [&line[..find(line, b";")], b"\r\n"].concat()
}
