//! The store: checks an image, proves a position or several, applies an edit.

use crate::command::{Command, Operation};
use crate::image;
use crate::joint;
use crate::metadata::Metadata;
use crate::proof::{Proof, MOST_ENTRIES};
use crate::refusal::Refusal;
use crate::sha256::Digest;
use crate::tree::{self, Column};
use crate::wrong::{self, wrong, Wrong};

/// Checks an image and answers its metadata.
pub fn check(buffer: &[u8]) -> Result<Metadata, Refusal> {
    let blocks = image::read(buffer)?;
    Ok(metadata(&blocks))
}

/// Count and root label of a row.
pub fn metadata(blocks: &[Column]) -> Metadata {
    let root = tree::root(blocks).side;
    let (count, label) = (root.rank, root.label);
    Metadata { count, label }
}

/// What Prove answers: the proof's byte length, and k, the entries in the path.
#[derive(Clone, Copy, Debug, PartialEq, Eq)]
pub struct Proved {
    pub length: u32,
    pub k: u32,
}

/// Writes the proof of p at `place` in the buffer. Order: 1, 2, 6, 5.
pub fn prove(archive: &[u8], p: u32, place: u32, buffer: &mut [u8]) -> Result<Proved, Refusal> {
    let blocks = image::read(archive)?;
    if p as usize > blocks.len() {
        return Err(Refusal::BadPosition);
    }
    let proof = tree::way(&tree::root(&blocks), p);
    let k = proof.entries.len();
    if k > MOST_ENTRIES {
        return Err(Refusal::TooDeep);
    }
    let (length, k) = (put(&proof.write(), place, buffer)?, k as u32);
    Ok(Proved { length, k })
}

/// Writes the bytes at `place`, if there is room for all, and answers how many.
fn put(bytes: &[u8], place: u32, buffer: &mut [u8]) -> Result<u32, Refusal> {
    if u64::from(place) + bytes.len() as u64 > buffer.len() as u64 {
        return Err(Refusal::NoRoom);
    }
    let place = place as usize;
    buffer[place..place + bytes.len()].copy_from_slice(bytes);
    Ok(bytes.len() as u32)
}

/// Writes the joint proof of the positions at `place` in the buffer and answers
/// its length. Order: 1, 13, 2, 6, 5.
pub fn prove_joint(
    archive: &[u8],
    positions: &[u32],
    place: u32,
    buffer: &mut [u8],
) -> Result<u32, Refusal> {
    let blocks = image::read(archive)?;
    joint::allowed(positions, blocks.len() as u32)?;
    let root = tree::root(&blocks);
    let ways = positions.iter().map(|p| tree::way(&root, *p));
    let proofs: Vec<Proof> = ways.collect();
    if proofs
        .iter()
        .any(|proof| proof.entries.len() > MOST_ENTRIES)
    {
        return Err(Refusal::TooDeep);
    }
    let singles: Vec<Vec<u8>> = proofs.iter().map(Proof::write).collect();
    put(&joint::write(&singles), place, buffer)
}

/// Applies a command to the image and answers the new count.
/// Order: 1, 2, 3, 4, 14, 5.
pub fn apply(buffer: &mut [u8], command: &Command) -> Result<u32, Refusal> {
    let blocks = image::read(buffer)?;
    command.allowed(blocks.len() as u32)?;
    let repeats = command.repeats(&tag_at(&blocks, command.p));
    if wrong::filed_again(command, &blocks, repeats) {
        return Err(Refusal::Repeated);
    }
    let edited = edit(&blocks, command);
    let after = image::write(&edited);
    if after.len() > buffer.len() {
        return Err(Refusal::NoRoom);
    }
    buffer[..after.len()].copy_from_slice(&after);
    if command.operation == Operation::Delete {
        clear_given_up(buffer, after.len());
    }
    Ok(edited.len() as u32)
}

/// Delete sets the 33 bytes that the image gave up to zero.
fn clear_given_up(buffer: &mut [u8], end: usize) {
    let mut from = end;
    if wrong(Wrong::DeleteZeroesNext) {
        from = buffer.len().min(end + image::RECORD);
    }
    let to = buffer.len().min(from + image::RECORD);
    buffer[from..to].fill(0);
}

/// The tag at p, 1 to n; 32 zero bytes elsewhere.
pub fn tag_at(blocks: &[Column], p: u32) -> Digest {
    let block = (p as usize).checked_sub(1).and_then(|at| blocks.get(at));
    block.and_then(|block| block.tag).unwrap_or_default()
}

/// The edited row. The command is in range.
pub fn edit(blocks: &[Column], command: &Command) -> Vec<Column> {
    let mut row = blocks.to_vec();
    let p = command.p as usize;
    let tag = Some(command.tag);
    let height = command.height;
    match command.operation {
        Operation::Read => (),
        Operation::Replace => row[p - 1].tag = tag,
        Operation::Insert => row.insert(p, Column { height, tag }),
        Operation::Delete => drop(row.remove(p - 1)),
    }
    row
}
