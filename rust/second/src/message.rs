//! The chain of block hashes and the message that a block's signature covers (paper 01, "Blocks",
//! "hash(0)" and "Block message").

use crate::sha512::sha512;

/// The hash of a block: over the block alone for the first one of a show, over the 64 bytes of the
/// hash before and the block for each later one.
pub fn chain(before: Option<&[u8; 64]>, block: &[u8]) -> [u8; 64] {
    match before {
        None => sha512([block]),
        Some(hash) => sha512([&hash[..], block]),
    }
}

/// Id, zero byte, offset in decimal, zero byte, the 64 bytes of the block's hash.
pub fn block_message(id: &[u8], offset: u64, hash: &[u8; 64]) -> Vec<u8> {
    let mut out = id.to_vec();
    out.push(0);
    out.extend_from_slice(offset.to_string().as_bytes());
    out.push(0);
    out.extend_from_slice(hash);
    out
}
