//! Rows whose blocks are known with their times and readings, and the honest
//! calls of the late filer on them.

use crate::answers::refused;
use crate::block::{message, Block};
use crate::cases::archive::{column, command, Archive};
use crate::command::Operation;
use crate::frames::{Answer, File};
use crate::refusal::Refusal;
use crate::sha256::{digest, Digest};

/// A row, and the blocks that its tags are of.
#[derive(Clone)]
pub struct Dated {
    heights: Vec<u8>,
    pub blocks: Vec<Block>,
}

pub fn block(time: u32, readings: &[u8]) -> Block {
    let readings = readings.to_vec();
    Block { time, readings }
}

/// The digest that would be its tag, however long the block is.
pub fn tag_of(block: &Block) -> Digest {
    digest(&message(block.time, &block.readings))
}

/// The heights of the row of five.
pub const HEIGHTS: [u8; 5] = [0, 2, 0, 1, 2];

/// The row of five with the blocks of these times, of fewer where there are
/// fewer; no two of the blocks are equal.
pub fn five_at(times: &[u32]) -> Dated {
    let readings = |at: usize| b"level 2.41"[..2 * at].to_vec();
    let blocks = times.iter().enumerate();
    let blocks = blocks.map(|(at, time)| block(*time, &readings(at)));
    Dated::new(&HEIGHTS[..times.len()], blocks.collect())
}

/// The five, ten seconds apart.
pub fn rising() -> Dated {
    five_at(&[10, 20, 30, 40, 50])
}

/// A new block in time after p, where the blocks are ten seconds apart.
pub fn late(p: u32) -> Block {
    block(10 * p + 5, b"late")
}

impl Dated {
    pub fn new(heights: &[u8], blocks: Vec<Block>) -> Dated {
        let heights = heights.to_vec();
        Dated { heights, blocks }
    }

    pub fn n(&self) -> u32 {
        self.blocks.len() as u32
    }

    /// The archive of the blocks' tags.
    pub fn archive(&self) -> Archive {
        let both = self.heights.iter().zip(&self.blocks);
        Archive::new(both.map(|(h, block)| column(*h, tag_of(block))).collect())
    }

    pub fn times(&self) -> Vec<u32> {
        self.blocks.iter().map(|block| block.time).collect()
    }

    /// The block at p. One that is missing stands in with a time that would be
    /// out of time, if it were looked at.
    pub fn block(&self, p: u32) -> Block {
        let found = (p as usize).checked_sub(1).map(|at| self.blocks.get(at));
        match found {
            None => block(u32::MAX, b"no left"),
            Some(None) => block(0, b"no right"),
            Some(Some(block)) => block.clone(),
        }
    }

    /// The honest call that files a block after p, in this row's archive.
    pub fn file(&self, archive: &Archive, p: u32, height: u8, new: &Block) -> File {
        File {
            held: archive.metadata(),
            p,
            height,
            new: new.clone(),
            left: self.block(p),
            right: self.block(p.saturating_add(1)),
            first: archive.proof(p),
            second: archive.proof(p.saturating_add(1)),
        }
    }

    /// The honest call, and what it is to be answered.
    pub fn honest(&self, archive: &Archive, p: u32, height: u8, new: &Block) -> (File, Answer) {
        let call = self.file(archive, p, height, new);
        (call, self.stated(archive, p, height, new))
    }

    /// The row with the block filed after p.
    pub fn filed(&self, p: u32, height: u8, new: &Block) -> Dated {
        let mut after = self.clone();
        after.heights.insert(p as usize, height);
        after.blocks.insert(p as usize, new.clone());
        after
    }

    /// Whether the new time lies between those beside the place, as far as
    /// there are any.
    fn in_time(&self, p: u32, new: u32) -> bool {
        let (before, behind) = self.blocks.split_at(p as usize);
        let left = before.last().map_or(0, |left| left.time);
        let right = behind.first().map_or(1 << 32, |right| right.time.into());
        left <= new && u64::from(new) < right
    }

    /// What an honest call is to be answered: whether it is filed is seen from
    /// the row alone, and then the metadata is the edited row's.
    fn stated(&self, archive: &Archive, p: u32, height: u8, new: &Block) -> Answer {
        let insert = command(Operation::Insert, p, height, tag_of(new));
        let refusal = match insert.allowed(self.n()) {
            Err(refusal) => Some(refusal),
            Ok(()) if p > 0 && self.block(p) == *new => Some(Refusal::Repeated),
            Ok(()) if !self.in_time(p, new.time) => Some(Refusal::OutOfTime),
            Ok(()) => None,
        };
        let (tag, metadata) = match refusal {
            Some(_) => ([0; 32], archive.metadata()),
            None => (archive.tag(p), archive.edited(&insert).metadata()),
        };
        Answer {
            tag,
            metadata,
            ..refusal.map_or(Answer::default(), refused)
        }
    }
}
