//! A stream written block by block as its body comes, in bounded memory.

use crate::base64;
use crate::plan::{block_message, Kind, Plan};
use crate::sodium;
use std::io::{self, Write};

/// Writes the stream of a plan, whose own blocks are left out of it.
pub struct Writer<W: Write> {
    plan: Plan,
    out: W,
    /// The hash of the block before, and then the block: what the next hash is over.
    text: Vec<u8>,
    hash: Vec<u8>,
    /// What the next chunk line ends with: the signature of the block before.
    extension: Vec<u8>,
    offset: u64,
}

impl<W: Write> Writer<W> {
    /// Writes the head.
    pub fn start(plan: Plan, mut out: W) -> io::Result<Self> {
        let built = plan.build();
        for part in built.parts.iter().filter(|part| part.kind == Kind::Head) {
            out.write_all(&part.bytes)?;
        }
        Ok(Writer { plan, out, text: Vec::new(), hash: Vec::new(), extension: Vec::new(), offset: 0 })
    }

    /// Writes a block. All but the last must have the plan's block size, and the last at least one byte.
    pub fn block(&mut self, block: &[u8]) -> io::Result<()> {
        self.line(block.len())?;
        self.out.write_all(block)?;
        self.out.write_all(b"\r\n")?;
        self.text.clear();
        self.text.extend(&self.hash);
        self.text.extend(block);
        self.hash = sodium::sha512(&self.text).to_vec();
        let signature = self.plan.signer.sign(&block_message(&self.plan.id, self.offset, &self.hash));
        self.extension = [b";ouisig=", &base64::encode(&signature)[..]].concat();
        self.offset += block.len() as u64;
        Ok(())
    }

    /// Writes the 0 line and the trailer.
    pub fn finish(mut self) -> io::Result<()> {
        self.line(0)?;
        self.out.write_all(&self.plan.trailer)?;
        self.out.flush()
    }

    fn line(&mut self, size: usize) -> io::Result<()> {
        self.out.write_all(&self.plan.sizes.write(size))?;
        self.out.write_all(&self.extension)?;
        self.out.write_all(b"\r\n")
    }
}

#[cfg(test)]
mod tests {
    use super::*;
    use crate::random;
    use crate::rng::Rng;

    #[test]
    fn the_same_bytes_as_built_at_once() {
        let mut rng = Rng::new(9);
        for _ in 0..50 {
            let plan = random::plan(&mut rng);
            let mut out = Vec::new();
            let mut writer = Writer::start(plan.clone(), &mut out).expect("memory takes all");
            for block in &plan.blocks {
                writer.block(block).expect("memory takes all");
            }
            writer.finish().expect("memory takes all");
            assert_eq!(out, plan.build().bytes());
        }
    }
}
