//! Base64 with padding: encoding, and how an encoding looks.

const LETTERS: &[u8; 64] = b"ABCDEFGHIJKLMNOPQRSTUVWXYZabcdefghijklmnopqrstuvwxyz0123456789+/";

pub fn encode(bytes: &[u8]) -> Vec<u8> {
    let mut out = Vec::with_capacity(bytes.len().div_ceil(3) * 4);
    for group in bytes.chunks(3) {
        let mut bits = 0u32;
        for place in 0..3 {
            bits = bits << 8 | u32::from(group.get(place).copied().unwrap_or(0));
        }
        for place in 0..4 {
            let letter = LETTERS[(bits >> (18 - 6 * place) & 63) as usize];
            out.push(if place <= group.len() { letter } else { b'=' });
        }
    }
    out
}

/// Whether the text is what `encode` makes of some bytes, so many of them: then its spare bits are zero.
pub fn is_of(text: &[u8], count: usize) -> bool {
    let letters = (8 * count).div_ceil(6);
    let spare = 6 * letters - 8 * count;
    let value = |letter: &u8| LETTERS.iter().position(|other| other == letter);
    text.len() == count.div_ceil(3) * 4
        && text[..letters].iter().all(|letter| value(letter).is_some())
        && text[letters..].iter().all(|&byte| byte == b'=')
        && text[..letters].last().and_then(value).is_none_or(|last| last % (1 << spare) == 0)
}

#[cfg(test)]
mod tests {
    use super::*;

    #[test]
    fn what_is_an_encoding() {
        for count in [0, 1, 2, 3, 4, 32, 64] {
            let text = encode(&b"\xff\0\x55"[..].repeat(22)[..count]);
            for other in 0..=70 {
                assert_eq!(is_of(&text, other), other == count, "{count} bytes, {other}");
            }
        }
        for wrong in ["Zh==", "Zg=", "Zg=A", "Z===", "====", "Zg-=", "Zg  "] {
            assert!(!is_of(wrong.as_bytes(), 1), "{wrong}");
        }
    }

    #[test]
    fn published_vectors() {
        for (bytes, text) in
            [(&b""[..], &b""[..]), (b"f", b"Zg=="), (b"fo", b"Zm8="), (b"foo", b"Zm9v"), (b"foobar", b"Zm9vYmFy")]
        {
            assert_eq!(encode(bytes), text);
        }
    }
}
