//! Document 01, "Commands": the four commands and their ranges; and what
//! document 02's ask 4 calls repeated.

use crate::block::GREATEST_HEIGHT;
use crate::metadata::MOST_BLOCKS;
use crate::refusal::Refusal;
use crate::sha256::Digest;

#[derive(Clone, Copy, Debug, PartialEq, Eq)]
pub enum Operation {
    Read,
    Replace,
    Insert,
    Delete,
}

pub const OPERATIONS: [Operation; 4] = [
    Operation::Read,
    Operation::Replace,
    Operation::Insert,
    Operation::Delete,
];

/// `height` is looked at by Insert alone, `tag` by Replace and Insert.
#[derive(Clone, Copy, Debug, PartialEq, Eq)]
pub struct Command {
    pub operation: Operation,
    pub p: u32,
    pub height: u8,
    pub tag: Digest,
}

impl Command {
    /// Insert takes a position 0 to n, the others 1 to n.
    fn in_range(&self, n: u32) -> bool {
        let least = u32::from(self.operation != Operation::Insert);
        least <= self.p && self.p <= n
    }

    /// Refusals 2, 3 and 4, in this order, for a row of n blocks.
    pub fn allowed(&self, n: u32) -> Result<(), Refusal> {
        if !self.in_range(n) {
            return Err(Refusal::BadPosition);
        }
        if self.operation == Operation::Insert && self.height > GREATEST_HEIGHT {
            return Err(Refusal::BadHeight);
        }
        if self.operation == Operation::Insert && n == MOST_BLOCKS {
            return Err(Refusal::Full);
        }
        Ok(())
    }

    /// Insert after p, p at least 1, of the tag that stands at p.
    pub fn repeats(&self, at_p: &Digest) -> bool {
        self.operation == Operation::Insert && self.p >= 1 && self.tag == *at_p
    }
}
