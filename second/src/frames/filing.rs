//! The fields of the late filer's two calls.

use super::{framed, write_metadata, Fields};
use crate::block::Block;
use crate::metadata::Metadata;

/// File a new block after p: the blocks sent for p and p + 1, and their proofs.
#[derive(Clone, Debug, PartialEq, Eq)]
pub struct File {
    pub held: Metadata,
    pub p: u32,
    pub height: u8,
    pub new: Block,
    pub left: Block,
    pub right: Block,
    pub first: Vec<u8>,
    pub second: Vec<u8>,
}

/// Find the place of a new time among the times of a row.
#[derive(Clone, Debug, PartialEq, Eq)]
pub struct FindPlace {
    pub times: Vec<u32>,
    pub new: u32,
}

impl Fields<'_> {
    /// Time, length of the readings, readings.
    fn block(&mut self) -> Option<Block> {
        let time = self.number()?;
        let readings = self.with_length()?;
        Some(Block { time, readings })
    }
}

fn write_block(block: &Block) -> Vec<u8> {
    [&block.time.to_be_bytes()[..], &framed(&block.readings)].concat()
}

impl File {
    pub(super) fn read(mut fields: Fields) -> Option<File> {
        Some(File {
            held: fields.metadata()?,
            p: fields.number()?,
            height: fields.byte()?,
            new: fields.block()?,
            left: fields.block()?,
            right: fields.block()?,
            first: fields.with_length()?,
            second: fields.rest(),
        })
    }

    pub(super) fn write(&self) -> Vec<u8> {
        let mut out = vec![13];
        out.extend(write_metadata(&self.held));
        out.extend(self.p.to_be_bytes());
        out.push(self.height);
        for block in [&self.new, &self.left, &self.right] {
            out.extend(write_block(block));
        }
        out.extend(framed(&self.first));
        out.extend(&self.second);
        out
    }

    /// The fields in one line.
    pub fn described(&self) -> String {
        let (p, height, count) = (self.p, self.height, self.held.count);
        let blocks = [&self.new, &self.left, &self.right];
        let [new, left, right] = blocks.map(|b| format!("{} ({} bytes)", b.time, b.readings.len()));
        let (first, second) = (self.first.len(), self.second.len());
        format!(
            "after {p}, height {height}, count {count}, times {new} between {left} and {right}, \
             proofs of {first} and {second}"
        )
    }
}

impl FindPlace {
    pub(super) fn read(mut fields: Fields) -> Option<FindPlace> {
        let number = fields.number()?;
        let times = (0..number).map(|_| fields.number());
        Some(FindPlace {
            times: times.collect::<Option<Vec<u32>>>()?,
            new: fields.number()?,
        })
    }

    pub(super) fn write(&self) -> Vec<u8> {
        let number = self.times.len() as u32;
        let numbers = [&[number][..], &self.times, &[self.new]].concat();
        let mut out = vec![14];
        out.extend(numbers.iter().flat_map(|n| n.to_be_bytes()));
        out
    }

    /// The fields in one line.
    pub fn described(&self) -> String {
        let (number, new) = (self.times.len(), self.new);
        let shown = &self.times[..number.min(8)];
        format!("of {new} in {number} times from {shown:?}")
    }
}
