//! Faults at the end of a show, each with the number that it is refused with.

use crate::end::{self, End, Written, DIGEST, SIG1, SIZE};
use crate::head::Field;
use crate::rules::edits::{spare_bit, swapped_case, TextEdit};
use crate::sodium::Signer;

/// How a fault is made: before the end is signed, or on the fields as they are written.
#[derive(Clone, Copy)]
pub enum Edit {
    Said(fn(&mut End)),
    Written(fn(&mut Written)),
}

pub type Fault = (&'static str, u8, Edit);

/// The most that ten digits can say.
const MOST_SIZE: u64 = 9_999_999_999;

/// A key that signs no show.
pub fn other_signer() -> Signer {
    Signer::from_seed(&[9; 32])
}

/// Faults that any show can have.
pub const FAULTS: [Fault; 34] = [
    ("no digest", 13, Edit::Written(|written| written.drop_field(DIGEST))),
    ("no size", 13, Edit::Written(|written| written.drop_field(SIZE))),
    ("no Sig1", 13, Edit::Written(|written| written.drop_field(SIG1))),
    ("a digest alone", 13, Edit::Written(|written| keep(written, DIGEST))),
    ("a size alone", 13, Edit::Written(|written| keep(written, SIZE))),
    ("Sig1 alone", 13, Edit::Written(|written| keep(written, SIG1))),
    ("the digest once more in the trailer", 13, Edit::Written(|written| again(written, DIGEST))),
    ("the size once more in the trailer", 13, Edit::Written(|written| again(written, SIZE))),
    ("Sig1 once more in the trailer", 13, Edit::Written(|written| again(written, SIG1))),
    ("another digest in the trailer", 13, Edit::Written(|written| other(written, "dIGEST"))),
    ("another size in the trailer", 13, Edit::Written(|written| other(written, "x-ouinet-data-size"))),
    ("another Sig1 in the trailer", 13, Edit::Written(|written| other(written, "X-OUINET-SIG1"))),
    ("a digest of another name", 13, Edit::Written(|written| rename(written, DIGEST, "Digest2"))),
    ("a size of another name", 13, Edit::Written(|written| rename(written, SIZE, "Data-Size"))),
    ("a Sig1 of another name", 13, Edit::Written(|written| rename(written, SIG1, "X-Ouinet-Sig2"))),
    ("a digest in small letters", 13, Edit::Said(|end| end.digest[..3].make_ascii_lowercase())),
    ("a digest with a spare bit", 13, Edit::Said(|end| end.digest = spare_bit(&end.digest, 1))),
    ("a digest that is cut short", 13, Edit::Said(|end| end.digest.truncate(51))),
    ("a size with a leading zero", 13, Edit::Said(|end| end.size.insert(0, b'0'))),
    ("a size of eleven digits", 13, Edit::Said(|end| end.size = b"10000000000".to_vec())),
    ("an empty size", 13, Edit::Said(|end| end.size.clear())),
    ("a list without its last name", 13, Edit::Said(|end| cut_list(end, b" x-ouinet-data-size"))),
    ("the head's own list", 13, Edit::Said(|end| cut_list(end, b" digest x-ouinet-data-size"))),
    ("a list with a name more", 13, Edit::Said(|end| end.list.extend(b" date"))),
    ("a list with a space at its end", 13, Edit::Said(|end| end.list.push(b' '))),
    ("created with a leading zero", 13, Edit::Said(|end| end.created.insert(0, b'0'))),
    ("a byte more", 14, Edit::Said(|end| end.size = size_plus(end, 1))),
    ("a byte less, or many more", 14, Edit::Said(|end| end.size = size_plus(end, MOST_SIZE))),
    ("four gibibytes more", 14, Edit::Said(|end| end.size = size_plus(end, 1 << 32))),
    ("another digest", 15, Edit::Said(|end| end.digest = end::digest(b"another body"))),
    ("a digest that differs in one letter", 15, Edit::Said(|end| end.digest[8] = next_letter(end.digest[8]))),
    ("a digest that differs in its last letter", 15, Edit::Said(|end| end.digest[50] = next_last(end.digest[50]))),
    ("a digest in the other case", 15, Edit::Said(|end| end.digest = other_case(&end.digest))),
    ("another key", 12, Edit::Said(|end| end.signer = other_signer())),
];

fn keep(written: &mut Written, name: &str) {
    written.head.retain(|field| field.name == name.as_bytes());
    written.trailer.retain(|field| field.name == name.as_bytes());
}

fn again(written: &mut Written, name: &str) {
    let field = written.field(name).clone();
    written.trailer.push(field);
}

fn other(written: &mut Written, name: &str) {
    written.trailer.push(Field::new(name, "1"));
}

fn rename(written: &mut Written, name: &str, new: &str) {
    written.field(name).name = new.as_bytes().to_vec();
}

fn cut_list(end: &mut End, tail: &[u8]) {
    end.list.truncate(end.list.len() - tail.len());
}

/// Another size, by adding so much. Where ten digits are too few it starts over at 0, so that the most is one less.
fn size_plus(end: &End, more: u64) -> Vec<u8> {
    let size: u64 = String::from_utf8_lossy(&end.size).parse().unwrap_or(0);
    ((size + more) % (MOST_SIZE + 1)).to_string().into_bytes()
}

/// Another letter of base64.
fn next_letter(letter: u8) -> u8 {
    if letter == b'A' {
        b'B'
    } else {
        b'A'
    }
}

/// Another last letter, without spare bits.
fn next_last(letter: u8) -> u8 {
    if letter == b'A' {
        b'E'
    } else {
        b'A'
    }
}

/// The digest with the letters of its hash in the other case; only the last, which has spare bits, is replaced.
fn other_case(digest: &[u8]) -> Vec<u8> {
    let (front, hash) = digest.split_at(8);
    [front, &swapped_case(&hash[..42]), &[next_last(hash[42]), b'=']].concat()
}

/// Texts that are no digest. Each is made from the right one.
pub const DIGEST_TEXTS: [(&str, TextEdit); 31] = [
    ("nothing", |_| Vec::new()),
    ("MD5=x", |_| b"MD5=x".to_vec()),
    ("x", |_| b"x".to_vec()),
    ("its name alone", |_| b"SHA-256=".to_vec()),
    ("its hash alone", |text| text[8..].to_vec()),
    ("sha-256=", |text| [b"sha-256=", &text[8..]].concat()),
    ("Sha-256=", |text| [b"Sha-256=", &text[8..]].concat()),
    ("SHA-512=", |text| [b"SHA-512=", &text[8..]].concat()),
    ("SHA256=", |text| [b"SHA256=", &text[8..]].concat()),
    ("SHA-256:", |text| [b"SHA-256:", &text[8..]].concat()),
    ("SHA-256 =", |text| [b"SHA-256 =", &text[8..]].concat()),
    ("SHA-256= ", |text| [b"SHA-256= ", &text[8..]].concat()),
    ("id-SHA-256=", |text| [b"id-", text].concat()),
    ("quotes around the hash", |text| [b"SHA-256=\"", &text[8..], b"\""].concat()),
    ("another digest behind it", |text| [text, b", MD5=x"].concat()),
    ("another digest before it", |text| [b"MD5=x, ", text].concat()),
    ("a comma behind it", |text| [text, b","].concat()),
    ("it twice", |text| [text, b",", text].concat()),
    ("a letter behind it", |text| [text, b"A"].concat()),
    ("43 characters", |text| text[..51].to_vec()),
    ("42 characters", |text| text[..50].to_vec()),
    ("the first character lost", |text| [b"SHA-256=", &text[9..]].concat()),
    ("45 characters", |text| [b"SHA-256=A", &text[8..]].concat()),
    ("48 characters", |text| [b"SHA-256=AAAA", &text[8..]].concat()),
    ("two padding signs", |text| [&text[..50], b"=="].concat()),
    ("no padding sign", |text| [&text[..51], b"A"].concat()),
    ("the lowest spare bit set", |text| spare_bit(text, 1)),
    ("the highest spare bit set", |text| spare_bit(text, 2)),
    ("a letter of the other alphabet", |text| [b"SHA-256=-", &text[9..]].concat()),
    ("a space inside", |text| [&text[..20], b" ", &text[21..]].concat()),
    ("hex", |_| [b"SHA-256=", &b"0123456789abcdef".repeat(4)[..]].concat()),
];

/// Texts that are no size.
pub const SIZE_TEXTS: [&str; 24] = [
    "",
    "00",
    "012",
    "0000000012",
    "00000000012",
    "12345678901",
    "42949672960",
    "99999999999",
    "18446744073709551628",
    "+12",
    "-12",
    "-0",
    "12.",
    "12.0",
    "1e1",
    "0xc",
    "c",
    "1 2",
    "12 12",
    "12,",
    "12, 12",
    "\"12\"",
    "12x",
    "\u{b2}",
];

/// Good texts of sizes that the example's body, of 12 bytes, does not have.
pub const OTHER_SIZES: [&str; 12] =
    ["0", "1", "5", "10", "11", "13", "21", "120", "4294967295", "4294967296", "4294967308", "9999999999"];

/// Lists that Sig1 may not have. Each is made from the right one.
pub const LISTS: [(&str, TextEdit); 26] = [
    ("nothing", |_| Vec::new()),
    ("the added names alone", |_| b"digest x-ouinet-data-size".to_vec()),
    ("the head's own list", |list| without_last(list, 2)),
    ("no size", |list| without_last(list, 1)),
    ("no digest", |list| [&without_last(list, 2)[..], b" x-ouinet-data-size"].concat()),
    ("the added names swapped", |list| [&without_last(list, 2)[..], b" x-ouinet-data-size digest"].concat()),
    ("the added names first", |list| [b"digest x-ouinet-data-size ", &without_last(list, 2)[..]].concat()),
    ("the added names twice", |list| [list, b" digest x-ouinet-data-size"].concat()),
    ("the digest twice", |list| [&without_last(list, 1)[..], b" digest x-ouinet-data-size"].concat()),
    ("the size twice", |list| [list, b" x-ouinet-data-size"].concat()),
    ("a name more at its end", |list| [list, b" trailer"].concat()),
    ("a name more before the added ones", |list| {
        [&without_last(list, 2)[..], b" trailer digest x-ouinet-data-size"].concat()
    }),
    ("Sig1 itself at its end", |list| [list, b" x-ouinet-sig1"].concat()),
    ("its first name lost", |list| names(list)[1..].join(&b' ')),
    ("its second name lost", |list| [&names(list)[..1], &names(list)[2..]].concat().join(&b' ')),
    ("its third name lost", |list| [&names(list)[..2], &names(list)[3..]].concat().join(&b' ')),
    ("the last of the head's names lost", |list| {
        let all = names(list);
        [&all[..all.len() - 3], &all[all.len() - 2..]].concat().join(&b' ')
    }),
    ("two of the head's names swapped", |list| {
        let mut all = names(list);
        all.swap(2, 3);
        all.join(&b' ')
    }),
    ("the names in brackets swapped", |list| {
        let mut all = names(list);
        all.swap(0, 1);
        all.join(&b' ')
    }),
    ("two spaces before the added names", |list| [&without_last(list, 2)[..], b"  digest x-ouinet-data-size"].concat()),
    ("two spaces between the added names", |list| {
        [&without_last(list, 2)[..], b" digest  x-ouinet-data-size"].concat()
    }),
    ("a tab before the added names", |list| [&without_last(list, 2)[..], b"\tdigest x-ouinet-data-size"].concat()),
    ("a space at its front", |list| [b" ", list].concat()),
    ("a space at its end", |list| [list, b" "].concat()),
    ("a comma between the added names", |list| [&without_last(list, 2)[..], b" digest,x-ouinet-data-size"].concat()),
    ("a letter of its last name lost", |list| list[..list.len() - 1].to_vec()),
];

fn names(list: &[u8]) -> Vec<&[u8]> {
    list.split(|&byte| byte == b' ').collect()
}

fn without_last(list: &[u8], count: usize) -> Vec<u8> {
    let names = names(list);
    names[..names.len() - count].join(&b' ')
}
