//! The late filer (document 02, ask 5): a block is filed after p if its time
//! lies between those of the blocks at p and p + 1, which the store sends along
//! and which must match the tags that their proofs show.

use crate::block::Block;
use crate::command::{Command, Operation};
use crate::frames::File;
use crate::gateway::{self, Accepted};
use crate::refusal::{Refusal, Which};
use crate::sha256::Digest;

/// A neighbour that is needed, by what it was sent as.
struct Neighbour {
    time: u32,
    tag: Digest,
}

/// A block that is not needed is not looked at; a long one is refused with 11.
fn neighbour(needed: bool, sent: &Block) -> Result<Option<Neighbour>, Refusal> {
    if !needed {
        return Ok(None);
    }
    let (time, tag) = (sent.time, sent.tag()?);
    Ok(Some(Neighbour { time, tag }))
}

/// Insert's answer. Order: 11 for the new block and the needed neighbours;
/// Insert's own 12, 2, 3, 4, then 7, 8, 9 on the first proof, then 14; 7, 8, 9
/// on the second; 16 for either block; 15 for either comparison.
pub fn file(call: &File) -> Result<Accepted, Refusal> {
    let tag = call.new.tag()?;
    let left = neighbour(call.p >= 1, &call.left)?;
    let right = neighbour(call.p < call.held.count, &call.right)?;
    let insert = Command {
        operation: Operation::Insert,
        p: call.p,
        height: call.height,
        tag,
    };
    let accepted = gateway::check(&call.held, &insert, &call.first, &[])?;
    let mut stands = left.iter().all(|left| left.tag == accepted.tag);
    if let Some(right) = &right {
        let (next, second) = (call.p + 1, Which::Second);
        let proof = gateway::examine(&call.held, next, &call.second, second)?;
        stands &= right.tag == proof.stop.tag;
    }
    if !stands {
        return Err(Refusal::WrongBlock);
    }
    let new = call.new.time;
    let in_time =
        left.map_or(true, |left| left.time <= new) && right.map_or(true, |right| new < right.time);
    match in_time {
        true => Ok(accepted),
        false => Err(Refusal::OutOfTime),
    }
}

/// The number of times that stand before the first one later than the new time;
/// of all times where none is later.
pub fn find_place(times: &[u32], new: u32) -> u32 {
    let later = times.iter().position(|time| *time > new);
    later.unwrap_or(times.len()) as u32
}
