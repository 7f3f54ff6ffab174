//! Ed25519, SHA-512, SHA-256 and unpredictable bytes through libsodium (Debian package libsodium-dev), for the generator, the signer
//! and the program that reads streams.

mod sha256;

pub use sha256::Sha256;
use std::ffi::{c_int, c_uchar, c_ulonglong, c_void};
use std::sync::Once;

#[link(name = "sodium")]
extern "C" {
    fn sodium_init() -> c_int;
    fn crypto_sign_seed_keypair(public: *mut c_uchar, secret: *mut c_uchar, seed: *const c_uchar) -> c_int;
    fn crypto_sign_detached(
        signature: *mut c_uchar,
        signature_length: *mut c_ulonglong,
        message: *const c_uchar,
        message_length: c_ulonglong,
        secret: *const c_uchar,
    ) -> c_int;
    fn crypto_sign_verify_detached(
        signature: *const c_uchar,
        message: *const c_uchar,
        message_length: c_ulonglong,
        public: *const c_uchar,
    ) -> c_int;
    fn randombytes_buf(out: *mut c_void, length: usize);
    fn crypto_hash_sha512(out: *mut c_uchar, message: *const c_uchar, message_length: c_ulonglong) -> c_int;
}

fn start() {
    static STARTED: Once = Once::new();
    STARTED.call_once(|| {
        // SAFETY: the call takes nothing and is made once before all others.
        let code = unsafe { sodium_init() };
        assert!(code >= 0, "libsodium does not start");
    });
}

/// A key pair made from a seed.
#[derive(Clone)]
pub struct Signer {
    pub public: [u8; 32],
    secret: [u8; 64],
}

impl Signer {
    pub fn from_seed(seed: &[u8; 32]) -> Self {
        start();
        let mut signer = Signer { public: [0; 32], secret: [0; 64] };
        // SAFETY: the three buffers have the lengths that libsodium names: 32, 64 and 32 bytes.
        let code =
            unsafe { crypto_sign_seed_keypair(signer.public.as_mut_ptr(), signer.secret.as_mut_ptr(), seed.as_ptr()) };
        assert_eq!(code, 0, "libsodium makes no key pair");
        signer
    }

    pub fn sign(&self, message: &[u8]) -> [u8; 64] {
        let mut signature = [0; 64];
        // SAFETY: the signature has 64 bytes, the secret 64, the message as many as it says; the
        // place for the length may be null.
        let code = unsafe {
            crypto_sign_detached(
                signature.as_mut_ptr(),
                std::ptr::null_mut(),
                message.as_ptr(),
                message.len() as c_ulonglong,
                self.secret.as_ptr(),
            )
        };
        assert_eq!(code, 0, "libsodium does not sign");
        signature
    }
}

/// Whether the signature over the message belongs to the key.
pub fn verify(public: &[u8; 32], message: &[u8], signature: &[u8; 64]) -> bool {
    start();
    // SAFETY: the signature has 64 bytes, the key 32, the message as many as it says.
    let code = unsafe {
        crypto_sign_verify_detached(signature.as_ptr(), message.as_ptr(), message.len() as c_ulonglong, public.as_ptr())
    };
    code == 0
}

pub fn sha512(message: &[u8]) -> [u8; 64] {
    start();
    let mut out = [0; 64];
    // SAFETY: the place for the hash has 64 bytes, the message as many as it says.
    let code = unsafe { crypto_hash_sha512(out.as_mut_ptr(), message.as_ptr(), message.len() as c_ulonglong) };
    assert_eq!(code, 0, "libsodium does not hash");
    out
}

/// Bytes that nobody can foretell.
pub fn random<const N: usize>() -> [u8; N] {
    start();
    let mut out = [0; N];
    // SAFETY: the place has as many bytes as the call is told.
    unsafe { randombytes_buf(out.as_mut_ptr().cast(), N) };
    out
}

#[cfg(test)]
mod tests {
    use super::*;

    #[test]
    fn a_signature_is_verified() {
        let signer = Signer::from_seed(&[7; 32]);
        let signature = signer.sign(b"text");
        assert!(verify(&signer.public, b"text", &signature));
        assert!(!verify(&signer.public, b"Text", &signature));
        assert!(!verify(&[1; 32], b"text", &signature));
    }
}
