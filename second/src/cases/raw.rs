//! Proofs as fields, whether or not they keep the rules, and the metadata that
//! a gateway without the rules would work out from them.

use crate::bytes;
use crate::metadata::Metadata;
use crate::proof::{ENTRY, HEADER, STOP};
use crate::sha256::Digest;
use crate::tree::{label, Side};

/// The fields of an entry.
#[derive(Clone, Copy, Debug, PartialEq, Eq)]
pub struct RawEntry {
    pub kind: u8,
    pub level: u8,
    pub rank: u32,
    pub field: Digest,
}

/// The fields of a stop record.
#[derive(Clone, Copy, Debug, PartialEq, Eq)]
pub struct RawStop {
    pub kind: u8,
    pub level: u8,
    pub own: u32,
    pub tag: Digest,
    pub right_rank: u32,
    pub right_label: Digest,
}

#[derive(Clone, Debug, PartialEq, Eq)]
pub struct RawProof {
    pub entries: Vec<RawEntry>,
    pub stop: RawStop,
}

pub fn down(level: u8, right: Side) -> RawEntry {
    RawEntry {
        kind: 0,
        level,
        rank: right.rank,
        field: right.label,
    }
}

pub fn right(level: u8, lower: Side) -> RawEntry {
    RawEntry {
        kind: 1,
        level,
        rank: lower.rank,
        field: lower.label,
    }
}

pub fn leaf(own: u32, tag: Digest) -> RawEntry {
    RawEntry {
        kind: 1,
        level: 0,
        rank: own,
        field: tag,
    }
}

/// A stop; with own 0 its tag field is zero, at rank 0 its label field.
pub fn stop(own: u32, tag: Digest, right: Side) -> RawStop {
    RawStop {
        kind: 2,
        level: 0,
        own,
        tag: if own == 0 { [0; 32] } else { tag },
        right_rank: right.rank,
        right_label: if right.rank == 0 {
            [0; 32]
        } else {
            right.label
        },
    }
}

/// What stands where the stop has its tag; zeros where there is no stop.
pub fn stop_tag(proof: &[u8]) -> Digest {
    let stop = proof.len().checked_sub(STOP);
    stop.map_or([0; 32], |at| bytes::digest(&proof[at + 6..at + 38]))
}

/// A tag or a missing one, as it is hashed.
fn third(own: u32, tag: &Digest) -> &[u8] {
    match own {
        0 => &[0],
        _ => tag,
    }
}

impl RawStop {
    pub fn side(&self) -> Side {
        let rank = self.own.wrapping_add(self.right_rank);
        let right = third(self.right_rank, &self.right_label);
        let label = label(0, rank, third(self.own, &self.tag), right);
        Side { rank, label }
    }
}

impl RawEntry {
    /// What stands above `below` by this entry.
    pub fn above(&self, below: Side) -> Side {
        let rank = self.rank.wrapping_add(below.rank);
        let label = match (self.kind, self.level) {
            (0, level) => label(level, rank, &below.label, &self.field),
            (1, 0) => label(0, rank, third(self.rank, &self.field), &below.label),
            (_, level) => label(level, rank, &self.field, &below.label),
        };
        Side { rank, label }
    }
}

/// What stands above `below` by all the entries.
pub fn climb(entries: &[RawEntry], below: Side) -> Side {
    let last_first = entries.iter().rev();
    last_first.fold(below, |below, entry| entry.above(below))
}

impl RawProof {
    /// The fields of a proof of whole entries.
    pub fn read(proof: &[u8]) -> RawProof {
        let (entries, stop) = proof[HEADER..].split_at(proof.len() - HEADER - STOP);
        let entry = |e: &[u8]| RawEntry {
            kind: e[0],
            level: e[1],
            rank: bytes::number(&e[2..6]),
            field: bytes::digest(&e[6..]),
        };
        RawProof {
            entries: entries.chunks(ENTRY).map(entry).collect(),
            stop: RawStop {
                kind: stop[0],
                level: stop[1],
                own: bytes::number(&stop[2..6]),
                tag: bytes::digest(&stop[6..38]),
                right_rank: bytes::number(&stop[38..42]),
                right_label: bytes::digest(&stop[42..]),
            },
        }
    }

    /// The bytes, with the length that belongs to them.
    pub fn write(&self) -> Vec<u8> {
        let mut out = vec![1];
        let rest = ENTRY * self.entries.len() + STOP;
        out.extend((rest as u16).to_be_bytes());
        for entry in &self.entries {
            out.extend([entry.kind, entry.level]);
            out.extend(entry.rank.to_be_bytes());
            out.extend(entry.field);
        }
        out.extend([self.stop.kind, self.stop.level]);
        out.extend(self.stop.own.to_be_bytes());
        out.extend(self.stop.tag);
        out.extend(self.stop.right_rank.to_be_bytes());
        out.extend(self.stop.right_label);
        out
    }

    /// Count and label that the fields add up to.
    pub fn metadata(&self) -> Metadata {
        let root = climb(&self.entries, self.stop.side());
        Metadata {
            count: root.rank,
            label: root.label,
        }
    }

    /// The position that the fields add up to.
    pub fn position(&self) -> u32 {
        let rights = self.entries.iter().filter(|entry| entry.kind != 0);
        rights.fold(self.stop.own, |sum, entry| sum.wrapping_add(entry.rank))
    }
}
