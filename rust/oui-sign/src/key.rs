//! Keys: a file with the seed of an Ed25519 key pair, as a line of base64.

use second::base64::decode_key;
use sodium::Signer;
use std::fs::{self, OpenOptions};
use std::io::Write;
use std::os::unix::fs::OpenOptionsExt;
use std::path::Path;
use streams::base64;
use streams::options::Options;

/// The year 2100.
const FAR: u64 = 4_102_444_800;

/// Makes a key and its file, which nobody else may read. A file that is there already is left alone.
pub fn make(path: &Path) -> Result<Signer, String> {
    let seed: [u8; 32] = sodium::random();
    let text = [&base64::encode(&seed)[..], b"\n"].concat();
    let made = OpenOptions::new().write(true).create_new(true).mode(0o600).open(path);
    made.and_then(|mut file| file.write_all(&text)).map_err(|error| format!("{}: {error}", path.display()))?;
    Ok(Signer::from_seed(&seed))
}

/// The key of a file.
pub fn load(path: &Path) -> Result<Signer, String> {
    let text = fs::read(path).map_err(|error| format!("{}: {error}", path.display()))?;
    let line = text.strip_suffix(b"\n").unwrap_or(&text);
    let seed = decode_key(line)
        .ok_or_else(|| format!("{}: line 1: a key file has one line, 32 bytes in base64", path.display()))?;
    Ok(Signer::from_seed(&seed))
}

/// The seconds in which a key is to be trusted.
pub struct Span {
    first: u64,
    last: u64,
}

impl Span {
    pub fn from(options: &mut Options) -> Result<Self, String> {
        let first = options.number("--first")?.unwrap_or(0);
        let last = options.number("--last")?.unwrap_or(FAR);
        if first > last {
            return Err(format!("the first second, {first}, comes after the last, {last}"));
        }
        Ok(Span { first, last })
    }

    /// The line that a ring's file has for the key.
    pub fn ring_line(&self, signer: &Signer) -> String {
        let key = base64::encode(&signer.public);
        format!("{} {} {}", String::from_utf8_lossy(&key), self.first, self.last)
    }
}
