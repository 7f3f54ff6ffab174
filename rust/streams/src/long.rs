//! Streams of any body length, written on the fly in bounded memory: block size 65,536 unless told
//! otherwise, the fixed test key, real signatures.

use crate::example;
use crate::plan::Plan;
use crate::writer::Writer;
use std::io::{self, Write};

/// The plan of a long stream, without its blocks.
fn plan(block_size: usize) -> Plan {
    let mut plan = example::plan();
    plan.block_size = block_size;
    plan.blocks.clear();
    plan.trailer = b"\r\n".to_vec();
    plan
}

/// The ring's text for a long stream.
pub fn ring() -> Vec<u8> {
    crate::plan::ring_text(&plan(1).ring)
}

/// The URI to ask for.
pub fn uri() -> Vec<u8> {
    plan(1).uri()
}

/// How many questions a body of so many bytes brings, the head's included.
pub fn questions(length: u64, block_size: usize) -> u64 {
    1 + length.div_ceil(block_size as u64)
}

/// Writes enough yes answers for a body of so many bytes.
pub fn write_answers(length: u64, block_size: usize, out: &mut impl Write) -> io::Result<()> {
    let line = b"yyyyyyyyyyyyyyyyyyyyyyyyyyyyyyyyyyyyyyyyyyyyyyyyyyyyyyyyyyyyyyyy\n";
    for _ in 0..questions(length, block_size).div_ceil(64) {
        out.write_all(line)?;
    }
    Ok(())
}

/// Writes the stream. Each block is a counter's bytes, so that no two are alike.
pub fn write_stream(length: u64, block_size: usize, out: &mut impl Write) -> io::Result<()> {
    let mut writer = Writer::start(plan(block_size), out)?;
    let mut block: Vec<u8> = Vec::with_capacity(block_size);
    let mut offset: u64 = 0;
    while offset < length {
        let size = (length - offset).min(block_size as u64) as usize;
        block.clear();
        fill(&mut block, offset, size);
        writer.block(&block)?;
        offset += size as u64;
    }
    writer.finish()
}

/// Adds so many bytes: eight at a time, the count of bytes before them.
fn fill(block: &mut Vec<u8>, offset: u64, size: usize) {
    let mut count = offset;
    while block.len() < size {
        let eight = count.wrapping_mul(0x9e37_79b9_7f4a_7c15).to_le_bytes();
        let rest = (size - block.len()).min(8);
        block.extend(&eight[..rest]);
        count += 8;
    }
}
