//! Metadata is count and root label; saved in 39 bytes.

use crate::bytes;
use crate::refusal::Refusal;
use crate::sha256::Digest;

/// An archive has at most this many blocks.
pub const MOST_BLOCKS: u32 = 4096;

/// Version, length in two bytes, count in four, label.
pub const SAVED: usize = 39;

#[derive(Clone, Copy, Debug, Default, PartialEq, Eq)]
pub struct Metadata {
    pub count: u32,
    pub label: Digest,
}

/// The 39 bytes; a count over 4,096 is refused with 12.
pub fn save(metadata: &Metadata) -> Result<[u8; SAVED], Refusal> {
    if metadata.count > MOST_BLOCKS {
        return Err(Refusal::BadMetadata);
    }
    let mut saved = [0; SAVED];
    saved[0] = 1;
    saved[1..3].copy_from_slice(&36u16.to_be_bytes());
    saved[3..7].copy_from_slice(&metadata.count.to_be_bytes());
    saved[7..].copy_from_slice(&metadata.label);
    Ok(saved)
}

/// Read only from exactly 39 bytes of the stated form.
pub fn load(saved: &[u8]) -> Result<Metadata, Refusal> {
    if saved.len() != SAVED || saved[0] != 1 || bytes::number(&saved[1..3]) != 36 {
        return Err(Refusal::BadMetadata);
    }
    let count = bytes::number(&saved[3..7]);
    if count > MOST_BLOCKS {
        return Err(Refusal::BadMetadata);
    }
    let label = bytes::digest(&saved[7..]);
    Ok(Metadata { count, label })
}
