//! Well-formed proofs of no archive, with the metadata that belongs to them.

use super::archive::{command, with_proof};
use super::proofs::one_proof;
use super::raw::{self, RawEntry, RawProof};
use super::Deck;
use crate::command::{Operation, OPERATIONS};
use crate::metadata::Metadata;
use crate::random::Random;
use crate::tree::Side;

const FAMILY: &str = "forged";

/// What entries a random path may have.
#[derive(Clone, Copy)]
pub struct Bounds {
    /// The highest level of the first entry.
    pub ceiling: u8,
    /// The lowest level; a down entry is above it.
    pub floor: u8,
    /// How many entries at most.
    pub most: usize,
    /// Right entries add nothing to the position.
    pub zero: bool,
    pub downs: bool,
    pub rights: bool,
}

pub const ANY: Bounds = Bounds {
    ceiling: 15,
    floor: 0,
    most: 8,
    zero: false,
    downs: true,
    rights: true,
};

/// A rank, mostly small.
pub fn random_rank(random: &mut Random) -> u32 {
    match random.below(500) {
        0 => random.below(4097),
        1 => 4096,
        _ => random.below(5),
    }
}

pub fn random_side(random: &mut Random, least: u32) -> Side {
    let rank = random_rank(random).max(least);
    let label = match random.one_in(30) {
        true => [0; 32],
        false => random.digest(),
    };
    Side { rank, label }
}

/// A path whose levels fall as they must.
pub fn random_path(random: &mut Random, bounds: Bounds) -> Vec<RawEntry> {
    let mut path = Vec::new();
    let mut ceiling = bounds.ceiling;
    while path.len() < bounds.most && ceiling >= bounds.floor {
        let level = match random.one_in(2) {
            true => ceiling,
            false => random.from_to(bounds.floor.into(), ceiling.into()) as u8,
        };
        let may_go_down = bounds.downs && level > bounds.floor;
        if may_go_down && (!bounds.rights || random.one_in(2)) {
            path.push(raw::down(level, random_side(random, 1)));
            ceiling = level - 1;
        } else if bounds.rights {
            path.push(random_right(random, level, bounds.zero));
            ceiling = level;
        } else {
            break;
        }
    }
    path
}

/// A right entry, at level 0 a leaf passed.
fn random_right(random: &mut Random, level: u8, zero: bool) -> RawEntry {
    let mut side = random_side(random, 0);
    if zero {
        side.rank = 0;
    }
    if level > 0 {
        return raw::right(level, side);
    }
    match zero || random.one_in(4) {
        true => raw::leaf(0, [0; 32]),
        false => raw::leaf(1, side.label),
    }
}

/// How long a random path may be.
pub fn random_most(random: &mut Random) -> usize {
    match random.below(60) {
        0 => 200,
        1 => random.index(200),
        _ => random.index(9),
    }
}

/// A well-formed proof; with `zero` it is one of position 0.
pub fn random_proof(random: &mut Random, zero: bool) -> RawProof {
    let ceiling = random.below(16) as u8;
    let most = random_most(random);
    let bounds = Bounds {
        ceiling,
        most,
        zero,
        ..ANY
    };
    let entries = random_path(random, bounds);
    let right = random_side(random, 0);
    let stop = raw::stop(u32::from(!zero), random.digest(), right);
    RawProof { entries, stop }
}

/// A hundred proofs, the same for every seed, and the sums at their edges.
pub fn fixed(deck: &mut Deck) {
    let mut random = Random::part(1, "forged");
    sums_past_16_bits(&mut random, deck);
    nothing_held(&mut random, deck);
    full(&mut random, deck);
    for _ in 0..100 {
        forgery(&mut random, deck);
    }
}

pub fn random(seed: u64, calls: u32, deck: &mut Deck) {
    let mut random = Random::part(seed, "random forged");
    for _ in 0..calls / 8 {
        forgery(&mut random, deck);
    }
}

/// A proof that is held by no archive, and one step away from it.
fn forgery(random: &mut Random, deck: &mut Deck) {
    let zero = random.one_in(5);
    let proof = random_proof(random, zero);
    accepted(&proof, random, deck);
    nearly(&proof, random, deck);
}

/// Read, Replace, and Insert at heights around the path's own levels.
fn accepted(proof: &RawProof, random: &mut Random, deck: &mut Deck) {
    let (held, p) = (proof.metadata(), proof.position());
    for operation in [Operation::Read, Operation::Replace] {
        deck.put(FAMILY, one_proof(operation, p, held, proof.write()));
    }
    for _ in 0..3 {
        let height = match proof.entries.is_empty() || random.one_in(3) {
            true => random.below(16) as u8,
            false => proof.entries[random.index(proof.entries.len())].level,
        };
        let command = command(Operation::Insert, p, height, random.digest());
        deck.put(FAMILY, with_proof(held, command, proof.write()));
    }
}

fn nearly(proof: &RawProof, random: &mut Random, deck: &mut Deck) {
    let (held, p, proof) = one_off(proof, random);
    let operation = random.pick(&OPERATIONS);
    for first in [proof.write(), random_proof(random, false).write()] {
        deck.put(FAMILY, one_proof(operation, p, held, first));
    }
}

/// One thing off: position, own, count, label, or an entry.
pub fn one_off(proof: &RawProof, random: &mut Random) -> (Metadata, u32, RawProof) {
    let (mut held, mut p) = (proof.metadata(), proof.position());
    let mut proof = proof.clone();
    match random.below(7) {
        0 => p += 1,
        1 => p = p.saturating_sub(1),
        2 => held.count += 1,
        3 => held.count = held.count.saturating_sub(1),
        4 => held.label[random.index(32)] ^= 1 << random.below(8),
        5 => {
            proof.stop.own ^= 1;
            proof.stop.tag = [0; 32];
            (held, p) = (proof.metadata(), proof.position());
        }
        _ => {
            let proved = random_proof(random, p == 0);
            proof.entries = proved.entries;
        }
    }
    (held, p, proof)
}

/// Sixteen ranks of 4,096 are 0 in 16 bits; a program must not sum in them.
fn sums_past_16_bits(random: &mut Random, deck: &mut Deck) {
    for kind in [0, 1] {
        let mut proof = random_proof(random, false);
        let (mut side, tag) = (random_side(random, 1), random.digest());
        side.rank = 4096;
        proof.entries = match kind {
            0 => (0..16).map(|_| raw::right(3, side)).collect(),
            _ => (1..16).rev().map(|l| raw::down(l, side)).collect(),
        };
        proof.stop = raw::stop(1, tag, side);
        if kind == 0 {
            proof.stop.right_rank = 5;
        }
        let (held, p) = (proof.metadata(), proof.position());
        for count in [held.count, held.count % 65_536, 4096] {
            for p in [p, p % 65_536, 1] {
                let held = Metadata { count, ..held };
                for operation in [Operation::Read, Operation::Insert] {
                    deck.put(FAMILY, one_proof(operation, p, held, proof.write()));
                }
            }
        }
    }
}

/// Count 0, but entries all the same: nothing but empty ranks on the way.
fn nothing_held(random: &mut Random, deck: &mut Deck) {
    for _ in 0..40 {
        let bounds = Bounds {
            zero: true,
            downs: false,
            ceiling: random.below(16) as u8,
            most: random.index(6),
            ..ANY
        };
        let entries = random_path(random, bounds);
        let label = [0; 32];
        let stop = raw::stop(0, [0; 32], Side { rank: 0, label });
        let proof = RawProof { entries, stop };
        for height in [0, 1, 2, 7, 15] {
            let command = command(Operation::Insert, 0, height, random.digest());
            let request = with_proof(proof.metadata(), command, proof.write());
            deck.put(FAMILY, request);
        }
    }
}

/// Counts of 4,095, 4,096 and 4,097 that no archive has.
fn full(random: &mut Random, deck: &mut Deck) {
    for count in 4094..=4098 {
        let mut proof = random_proof(random, false);
        proof.entries.truncate(2);
        proof.stop.right_rank = 1;
        proof.stop.right_label = [3; 32];
        let others = proof.metadata().count - 1;
        proof.stop.right_rank = (count - others.min(count)).max(1);
        let (held, p) = (proof.metadata(), proof.position());
        for operation in [Operation::Read, Operation::Replace, Operation::Insert] {
            deck.put(FAMILY, one_proof(operation, p, held, proof.write()));
        }
    }
}
