//! Joint proofs as their parts, whether or not they keep the rules.

use crate::cases::archive::Archive;
use crate::frames::{CheckJoint, ProveJoint, Request};
use crate::joint::{Path, HEADER};
use crate::metadata::Metadata;

/// What one proof puts into a joint proof: its shared number, which the first
/// does not write, and the records that are not shared.
#[derive(Clone, Debug, PartialEq, Eq)]
pub struct Part {
    pub shared: u16,
    pub records: Vec<u8>,
}

#[derive(Clone, Debug, PartialEq, Eq)]
pub struct Parts {
    pub number: u8,
    pub parts: Vec<Part>,
}

/// The largest shared number of each proof with the one before; the first's is 0.
pub fn largest(proofs: &[Vec<u8>]) -> Vec<usize> {
    let shared = |pair: &[Vec<u8>]| Path::of(&pair[0]).shared(&Path::of(&pair[1]));
    let later = proofs.windows(2).map(shared);
    let first = proofs.iter().take(1).map(|_| 0);
    first.chain(later).collect()
}

impl Parts {
    /// The parts of these single proofs, with the largest shared numbers.
    pub fn of(proofs: &[Vec<u8>]) -> Parts {
        Parts::sharing(proofs, &largest(proofs))
    }

    /// The parts with these shared numbers, and the other entries spelled out.
    pub fn sharing(proofs: &[Vec<u8>], shares: &[usize]) -> Parts {
        let part = |(single, shared): (&Vec<u8>, &usize)| Part {
            shared: *shared as u16,
            records: Path::of(single).from(*shared),
        };
        let parts = proofs.iter().zip(shares).map(part).collect();
        let number = proofs.len() as u8;
        Parts { number, parts }
    }

    /// The bytes, with the length that belongs to them.
    pub fn write(&self) -> Vec<u8> {
        let mut out = vec![1, 0, 0, 0, 0, self.number];
        for (at, part) in self.parts.iter().enumerate() {
            if at > 0 {
                out.extend(part.shared.to_be_bytes());
            }
            out.extend(&part.records);
        }
        restated(out)
    }
}

/// The joint proof of these single proofs.
pub fn joined(proofs: &[Vec<u8>]) -> Vec<u8> {
    Parts::of(proofs).write()
}

/// The bytes with the length that belongs to them, if there is a field for it.
pub fn restated(mut joint: Vec<u8>) -> Vec<u8> {
    if let Some(rest) = joint.len().checked_sub(HEADER) {
        joint[1..HEADER].copy_from_slice(&(rest as u32).to_be_bytes());
    }
    joint
}

/// The check of a joint proof.
pub fn check(held: Metadata, positions: &[u32], joint: Vec<u8>) -> Request {
    let positions = positions.to_vec();
    Request::CheckJoint(CheckJoint {
        held,
        positions,
        joint,
    })
}

/// The proof of several positions from an image.
pub fn prove(positions: Vec<u32>, place: u32, length: u32, image: Vec<u8>) -> Request {
    Request::ProveJoint(ProveJoint {
        positions,
        place,
        length,
        image,
    })
}

impl Archive {
    /// The honest single proofs of these positions.
    pub fn singles(&self, positions: &[u32]) -> Vec<Vec<u8>> {
        positions.iter().map(|p| self.proof(*p)).collect()
    }

    /// The joint proof of these positions, also where they are no set.
    pub fn joint(&self, positions: &[u32]) -> Vec<u8> {
        joined(&self.singles(positions))
    }

    pub fn prove_joint(&self, positions: &[u32], place: u32, length: u32) -> Request {
        let (positions, image) = (positions.to_vec(), self.image());
        prove(positions, place, length, image)
    }

    /// The honest check.
    pub fn check_joint(&self, positions: &[u32]) -> Request {
        check(self.metadata(), positions, self.joint(positions))
    }
}
