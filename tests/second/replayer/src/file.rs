//! Job files: blocks of 512 bytes with their number, their payload and two sums.

use crate::job::{Header, Job, Refusal};

pub const BLOCK: usize = 512;
pub const PAYLOAD: usize = 506;
pub const SUMMED: usize = 508;
pub const BLOCKS: usize = 35;
pub const FILE_LIMIT: usize = BLOCKS * BLOCK;
/// The work memory that a call needs: the payload of the largest file.
pub const WORK: usize = BLOCKS * PAYLOAD;

/// The two sums over a block's bytes 0 to 507.
pub fn sums(block: &[u8; BLOCK]) -> (u16, u16) {
    let (mut a, mut b) = (1u16, 0u16);
    for &byte in &block[..SUMMED] {
        a = a.wrapping_add(u16::from(byte));
        b = b.wrapping_add(a);
    }
    (a, b)
}

fn word(block: &[u8; BLOCK], at: usize) -> u16 {
    u16::from_be_bytes([block[at], block[at + 1]])
}

/// A block's payload, or condition 3, then 4.
pub fn payload(block: &[u8; BLOCK], position: usize) -> Result<&[u8], Refusal> {
    if sums(block) != (word(block, SUMMED), word(block, SUMMED + 2)) {
        return Err(3);
    }
    if usize::from(word(block, 0)) != position {
        return Err(4);
    }
    Ok(&block[2..SUMMED])
}

/// How many blocks the file of a job has.
pub fn exact_count(header: &Header) -> usize {
    header.length().div_ceil(PAYLOAD)
}

/// The job in a file and its length, its stream joined in `work`; or conditions 2 to 12. `work` has WORK bytes.
pub fn open<'a>(file: &[u8], work: &'a mut [u8]) -> Result<(Job<'a>, usize), Refusal> {
    if file.is_empty() || file.len() > FILE_LIMIT || !file.len().is_multiple_of(BLOCK) {
        return Err(2);
    }
    let (blocks, _) = file.as_chunks();
    for (position, block) in blocks.iter().enumerate() {
        work[position * PAYLOAD..][..PAYLOAD].copy_from_slice(payload(block, position)?);
    }
    let stream = &work[..blocks.len() * PAYLOAD];
    let header = Header::of(stream)?;
    if blocks.len() != exact_count(&header) {
        return Err(9);
    }
    let job = Job::of(header, stream)?;
    if stream[header.length()..].iter().any(|&byte| byte != 0) {
        return Err(12);
    }
    Ok((job, header.length()))
}

/// Writes a stream, padded with zeros, as blocks into `out`; gives the file's length.
pub fn seal(stream: &[u8], out: &mut [u8]) -> usize {
    let (blocks, _) = out.as_chunks_mut();
    let pieces = stream.chunks(PAYLOAD);
    let count = pieces.len();
    for (position, (piece, block)) in pieces.zip(blocks).enumerate() {
        block[..2].copy_from_slice(&(position as u16).to_be_bytes());
        block[2..2 + piece.len()].copy_from_slice(piece);
        block[2 + piece.len()..SUMMED].fill(0);
        seal_sums(block);
    }
    count * BLOCK
}

/// Writes a block's two sums.
pub fn seal_sums(block: &mut [u8; BLOCK]) {
    let (a, b) = sums(block);
    block[SUMMED..SUMMED + 2].copy_from_slice(&a.to_be_bytes());
    block[SUMMED + 2..].copy_from_slice(&b.to_be_bytes());
}

/// A stream as a file of its own.
pub fn sealed(stream: &[u8]) -> Vec<u8> {
    let mut file = vec![0; stream.len().div_ceil(PAYLOAD) * BLOCK];
    seal(stream, &mut file);
    file
}
