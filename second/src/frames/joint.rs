//! The fields of the two calls on joint proofs.

use super::{write_metadata, Fields};
use crate::metadata::Metadata;

/// A joint proof's buffer has at most this many bytes.
pub const LONGEST_JOINT_BUFFER: u32 = 262_144;

/// Prove the positions, at a place in a buffer of this length.
#[derive(Clone, Debug, PartialEq, Eq)]
pub struct ProveJoint {
    pub positions: Vec<u32>,
    pub place: u32,
    pub length: u32,
    pub image: Vec<u8>,
}

/// Check a joint proof of the positions.
#[derive(Clone, Debug, PartialEq, Eq)]
pub struct CheckJoint {
    pub held: Metadata,
    pub positions: Vec<u32>,
    pub joint: Vec<u8>,
}

impl Fields<'_> {
    /// Their number in one byte, then the positions.
    fn positions(&mut self) -> Option<Vec<u32>> {
        let number = self.byte()?;
        (0..number).map(|_| self.number()).collect()
    }
}

/// At most 255 positions, after their number.
fn write_positions(positions: &[u32]) -> Vec<u8> {
    let mut out = vec![positions.len() as u8];
    out.extend(positions.iter().flat_map(|p| p.to_be_bytes()));
    out
}

impl ProveJoint {
    pub(super) fn read(mut fields: Fields) -> Option<ProveJoint> {
        let positions = fields.positions()?;
        let (place, length) = (fields.number()?, fields.number()?);
        let image = fields.rest();
        (length <= LONGEST_JOINT_BUFFER).then_some(ProveJoint {
            positions,
            place,
            length,
            image,
        })
    }

    pub(super) fn write(&self) -> Vec<u8> {
        let numbers = [self.place, self.length].map(u32::to_be_bytes).concat();
        let positions = write_positions(&self.positions);
        [&[11][..], &positions, &numbers, &self.image].concat()
    }

    /// The fields in one line.
    pub fn described(&self) -> String {
        let (positions, lent) = (&self.positions, self.image.len());
        let (place, length) = (self.place, self.length);
        format!("{positions:?}, place {place} of {length}, image buffer of {lent}")
    }
}

impl CheckJoint {
    pub(super) fn read(mut fields: Fields) -> Option<CheckJoint> {
        Some(CheckJoint {
            held: fields.metadata()?,
            positions: fields.positions()?,
            joint: fields.rest(),
        })
    }

    pub(super) fn write(&self) -> Vec<u8> {
        let (held, positions) = (write_metadata(&self.held), write_positions(&self.positions));
        [&[12][..], &held, &positions, &self.joint].concat()
    }

    /// The fields in one line.
    pub fn described(&self) -> String {
        let (positions, length) = (&self.positions, self.joint.len());
        let count = self.held.count;
        format!("{positions:?}, count {count}, joint proof of {length}")
    }
}
