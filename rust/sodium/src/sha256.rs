//! SHA-256 of bytes that come in pieces.

use super::start;
use std::ffi::{c_int, c_uchar, c_ulonglong};

/// What libsodium calls `crypto_hash_sha256_state`.
#[repr(C)]
#[derive(Clone)]
struct State {
    words: [u32; 8],
    count: u64,
    rest: [u8; 64],
}

extern "C" {
    fn crypto_hash_sha256_statebytes() -> usize;
    fn crypto_hash_sha256_init(state: *mut State) -> c_int;
    fn crypto_hash_sha256_update(state: *mut State, message: *const c_uchar, message_length: c_ulonglong) -> c_int;
    fn crypto_hash_sha256_final(state: *mut State, out: *mut c_uchar) -> c_int;
}

/// A hash under way.
#[derive(Clone)]
pub struct Sha256(State);

impl Default for Sha256 {
    fn default() -> Self {
        start();
        let mut state = State { words: [0; 8], count: 0, rest: [0; 64] };
        // SAFETY: the call takes nothing, and the state has as many bytes as it says, which is looked at first.
        let code = unsafe {
            assert_eq!(crypto_hash_sha256_statebytes(), size_of::<State>(), "libsodium has another state");
            crypto_hash_sha256_init(&mut state)
        };
        assert_eq!(code, 0, "libsodium does not hash");
        Sha256(state)
    }
}

impl Sha256 {
    /// Takes the next bytes.
    pub fn update(&mut self, bytes: &[u8]) {
        // SAFETY: the state was made by libsodium, and the message has as many bytes as it says.
        let code = unsafe { crypto_hash_sha256_update(&mut self.0, bytes.as_ptr(), bytes.len() as c_ulonglong) };
        assert_eq!(code, 0, "libsodium does not hash");
    }

    /// The hash of all bytes that were taken.
    pub fn finish(mut self) -> [u8; 32] {
        let mut out = [0; 32];
        // SAFETY: the state was made by libsodium, and the place for the hash has 32 bytes.
        let code = unsafe { crypto_hash_sha256_final(&mut self.0, out.as_mut_ptr()) };
        assert_eq!(code, 0, "libsodium does not hash");
        out
    }
}

#[cfg(test)]
mod tests {
    use super::*;

    fn hex(bytes: &[u8]) -> String {
        bytes.iter().map(|byte| format!("{byte:02x}")).collect()
    }

    #[test]
    fn the_vectors_of_fips_180_4_however_they_come() {
        for (text, hash) in [
            (&b""[..], "e3b0c44298fc1c149afbf4c8996fb92427ae41e4649b934ca495991b7852b855"),
            (b"abc", "ba7816bf8f01cfea414140de5dae2223b00361a396177a9cb410ff61f20015ad"),
            (
                b"abcdbcdecdefdefgefghfghighijhijkijkljklmklmnlmnomnopnopq",
                "248d6a61d20638b8e5c026930c3e6039a33ce45964ff2167f6ecedd419db06c1",
            ),
        ] {
            for piece in [1, 3, 64, 100] {
                let mut under_way = Sha256::default();
                text.chunks(piece).for_each(|bytes| under_way.update(bytes));
                assert_eq!(hex(&under_way.finish()), hash);
            }
        }
    }
}
