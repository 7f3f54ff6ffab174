//! A key in base64 with padding: 44 characters for 32 bytes, spare bits zero.

/// The value of one of the sixty-four letters.
fn letter(byte: u8) -> Option<u8> {
    match byte {
        b'A'..=b'Z' => Some(byte - b'A'),
        b'a'..=b'z' => Some(byte - b'a' + 26),
        b'0'..=b'9' => Some(byte - b'0' + 52),
        b'+' => Some(62),
        b'/' => Some(63),
        _ => None,
    }
}

/// The key that a text stands for, if it is one.
pub(crate) fn key(text: &[u8]) -> Option<[u8; 32]> {
    let letters = text.strip_suffix(b"=")?;
    if letters.len() != 43 {
        return None;
    }
    let mut key = [0; 32];
    let (mut bits, mut count, mut place) = (0u32, 0, 0);
    for &byte in letters {
        bits = bits << 6 | u32::from(letter(byte)?);
        count += 6;
        if count >= 8 {
            count -= 8;
            key[place] = (bits >> count) as u8;
            place += 1;
            bits &= (1 << count) - 1;
        }
    }
    // 43 letters are 258 bits: two are left over.
    (bits == 0).then_some(key)
}

#[cfg(test)]
mod tests {
    use super::*;

    #[test]
    fn keys() {
        assert_eq!(key(format!("{}=", "A".repeat(43)).as_bytes()), Some([0; 32]));
        assert_eq!(key(format!("{}8=", "/".repeat(42)).as_bytes()), Some([255; 32]));
        let ascending: [u8; 32] = std::array::from_fn(|place| place as u8);
        assert_eq!(key(b"AAECAwQFBgcICQoLDA0ODxAREhMUFRYXGBkaGxwdHh8="), Some(ascending));
        for wrong in [
            String::new(),
            "A".repeat(44),
            format!("{}=", "A".repeat(42)),
            format!("{}==", "A".repeat(42)),
            format!("{}B=", "A".repeat(42)),
            format!("{}-=", "A".repeat(42)),
            format!("{}=\n", "A".repeat(43)),
        ] {
            assert_eq!(key(wrong.as_bytes()), None, "{wrong:?}");
        }
    }
}
