//! The chain of hashes over a body: that of a block is SHA-512 over the hash of the block before, if there is one, and the block. Each block's
//! signature is over its hash, so that it vouches for all blocks before it too.

use std::fs::File;
use std::io::{self, BufReader, Read, Seek, SeekFrom};

pub type Hash = [u8; 64];

/// So many bytes of a file are read at a time.
const MOST_READ: usize = 1 << 17;

/// The hash of a block behind the one with that hash, or of the first.
pub fn next(before: Option<&Hash>, block: &[u8]) -> Hash {
    let before = before.map_or(&[][..], |hash| hash);
    sodium::sha512(&[before, block].concat())
}

/// The hash of the last block in a file's first bytes, so many of them, in blocks of this size; none where there is no block. A file
/// that has not so many is an error.
pub fn over(mut file: &File, block_size: u64, length: u64) -> io::Result<Option<Hash>> {
    file.seek(SeekFrom::Start(0))?;
    let mut bytes = BufReader::with_capacity(MOST_READ, file);
    let mut block = vec![0; block_size as usize];
    let (mut hash, mut place) = (None, 0);
    while place < length {
        let count = block_size.min(length - place);
        let block = &mut block[..count as usize];
        bytes.read_exact(block)?;
        hash = Some(next(hash.as_ref(), block));
        place += count;
    }
    Ok(hash)
}

#[cfg(test)]
mod tests {
    use super::*;
    use std::io::Write;

    fn hex(hash: Option<Hash>) -> String {
        hash.map_or(String::new(), |hash| hash.iter().map(|byte| format!("{byte:02x}")).collect())
    }

    /// Document 000 has these of `Hello world!` in blocks of 5.
    const FIRST: &str = "3615f80c9d293ed7402687f94b22d58e529b8cc7916f8fac7fddf7fbd5af4cf7\
                         77d3d795a7a00a16bf7e7f3fb9561ee9baae480da9fe7a18769e71886b03f315";

    #[test]
    fn the_example_of_document_000() {
        let path = std::env::temp_dir().join(format!("oui-fetch-chain-{}", std::process::id()));
        let mut file = File::options().read(true).write(true).create_new(true).open(&path).expect("a new file");
        file.write_all(b"Hello world!").expect("room for twelve bytes");
        let at = |length| over(&file, 5, length).expect("so many bytes are there");
        assert_eq!(at(0), None);
        assert_eq!(hex(at(5)), FIRST);
        assert_eq!(at(10), at(5).map(|first| next(Some(&first), b" worl")));
        assert_eq!(at(12), at(10).map(|second| next(Some(&second), b"d!")));
        assert_eq!(at(5), Some(next(None, b"Hello")));
        assert_ne!(at(10), at(12));
        assert!(over(&file, 5, 13).is_err() && over(&file, 5, 15).is_err());
        std::fs::remove_file(path).expect("it is there");
    }
}
