//! Base64 with padding, read strictly: the sixty-four letters of RFC 4648, whole groups of four,
//! `=` only at the end and only as many as the length asks for, spare bits zero (paper 01, "The
//! head", last point).

/// The value of one letter.
fn letter(byte: u8) -> Option<u32> {
    let value = match byte {
        b'A'..=b'Z' => byte - b'A',
        b'a'..=b'z' => byte - b'a' + 26,
        b'0'..=b'9' => byte - b'0' + 52,
        b'+' => 62,
        b'/' => 63,
        _ => return None,
    };
    Some(u32::from(value))
}

/// The bytes that the text stands for, or nothing if it is not good base64.
pub fn decode(text: &[u8]) -> Option<Vec<u8>> {
    if !text.len().is_multiple_of(4) {
        return None;
    }
    let groups = text.len() / 4;
    let mut out = Vec::with_capacity(groups * 3);
    for (number, group) in text.chunks_exact(4).enumerate() {
        let last = number + 1 == groups;
        out.extend(decode_group(group, last)?);
    }
    Some(out)
}

/// One group of four letters. Only the last one may hold padding.
fn decode_group(group: &[u8], last: bool) -> Option<Vec<u8>> {
    let letters = group.iter().take_while(|&&b| b != b'=').count();
    let padding_is_right = group[letters..].iter().all(|&b| b == b'=');
    if !padding_is_right || letters < 2 || (letters < 4 && !last) {
        return None;
    }
    let mut bits: u32 = 0;
    for &byte in &group[..letters] {
        bits = bits << 6 | letter(byte)?;
    }
    let count = letters - 1;
    let spare = letters * 6 - count * 8;
    if bits & ((1 << spare) - 1) != 0 {
        return None;
    }
    bits >>= spare;
    Some((0..count).rev().map(|i| (bits >> (8 * i)) as u8).collect())
}

/// A key: 44 characters for 32 bytes.
pub fn decode_key(text: &[u8]) -> Option<[u8; 32]> {
    if text.len() != 44 {
        return None;
    }
    decode(text)?.try_into().ok()
}

/// A signature: 88 characters for 64 bytes.
pub fn decode_signature(text: &[u8]) -> Option<[u8; 64]> {
    if text.len() != 88 {
        return None;
    }
    decode(text)?.try_into().ok()
}

#[cfg(test)]
mod tests {
    use super::*;

    #[test]
    fn published_vectors() {
        let table: [(&[u8], &[u8]); 7] = [
            (b"", b""),
            (b"Zg==", b"f"),
            (b"Zm8=", b"fo"),
            (b"Zm9v", b"foo"),
            (b"Zm9vYg==", b"foob"),
            (b"Zm9vYmE=", b"fooba"),
            (b"Zm9vYmFy", b"foobar"),
        ];
        for (text, bytes) in table {
            assert_eq!(decode(text).as_deref(), Some(bytes));
        }
    }

    #[test]
    fn wrong_texts() {
        let table: [&[u8]; 13] = [
            b"Z",
            b"Zg",
            b"Zg=",
            b"Zh==",
            b"Zm9=",
            b"Z===",
            b"====",
            b"Zg==Zg==",
            b"Zm-v",
            b"Zm_v",
            b"Zm v",
            b"Zg=v",
            b"Zm9v\n",
        ];
        for text in table {
            assert_eq!(decode(text), None, "{:?}", String::from_utf8_lossy(text));
        }
    }

    #[test]
    fn lengths_of_keys_and_signatures() {
        let mut key = vec![b'A'; 43];
        key.push(b'=');
        assert_eq!(decode_key(&key), Some([0; 32]));
        assert_eq!(decode_key(&key[..43]), None);
        assert_eq!(decode_key(&[b'A'; 44]), None);
        key[42] = b'E';
        assert!(decode_key(&key).is_some());
        for spare in [b'B', b'C', b'D'] {
            key[42] = spare;
            assert_eq!(decode_key(&key), None);
        }
        let mut signature = vec![b'A'; 86];
        signature.extend(b"==");
        assert_eq!(decode_signature(&signature), Some([0; 64]));
        assert_eq!(decode_signature(&signature[..87]), None);
        signature[85] = b'Q';
        assert!(decode_signature(&signature).is_some());
        signature[85] = b'P';
        assert_eq!(decode_signature(&signature), None);
    }
}
