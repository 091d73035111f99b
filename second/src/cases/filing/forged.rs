//! Two proofs of no archive that recompute one root, with the metadata that
//! belongs to them. Where Delete asks whether they meet, the filer does not.

use super::dated::{block, five_at, late, tag_of, Dated};
use crate::block::Block;
use crate::cases::forged::{random_path, random_side, Bounds, ANY};
use crate::cases::pairs::{pair_of, Kind, KINDS};
use crate::cases::raw::{self, RawEntry, RawProof};
use crate::cases::Deck;
use crate::frames::{File, Request};
use crate::random::Random;
use crate::tree::Side;

const FAMILY: &str = "filing forged";

/// Twenty pairs of each kind, the same for every seed, and counts at the limit.
pub fn fixed(deck: &mut Deck) {
    let mut random = Random::part(1, "filing forged");
    for _ in 0..20 {
        for kind in KINDS {
            pair_calls(kind, &mut random, deck);
        }
        at_the_end(&mut random, deck);
    }
    full(deck);
    own_0(deck);
}

pub fn random(seed: u64, calls: u32, deck: &mut Deck) {
    let mut random = Random::part(seed, "random filing forged");
    for _ in 0..calls / 8 {
        let kind = random.pick(&KINDS);
        pair_calls(kind, &mut random, deck);
    }
}

fn random_block(random: &mut Random, time: u32) -> Block {
    let length = random.index(20);
    block(time, &random.bytes(length))
}

/// The filing of a block between two that a pair of proofs shows.
fn forgery(kind: Kind, random: &mut Random) -> File {
    let time = random.from_to(10, 1000);
    let (apart, height) = (random.from_to(1, 3), random.below(16) as u8);
    let between = time + random.below(apart);
    let blocks = [between, time, time + apart].map(|time| random_block(random, time));
    let [_, left, right] = &blocks;
    let tags = [left, right].map(|block| Some(tag_of(block)));
    let (first, second) = pair_of(kind, random, tags);
    filing(&first, &second, height, blocks)
}

/// The pair, and one step away from it.
fn pair_calls(kind: Kind, random: &mut Random, deck: &mut Deck) {
    let call = forgery(kind, random);
    deck.put(FAMILY, Request::File(call.clone()));
    for _ in 0..5 {
        let mut off = call.clone();
        one_off(&mut off, random);
        deck.put(FAMILY, Request::File(off));
    }
    let mut both = call;
    both.held = RawProof::read(&both.second).metadata();
    deck.put(FAMILY, Request::File(both.clone()));
    std::mem::swap(&mut both.first, &mut both.second);
    deck.put(FAMILY, Request::File(both));
}

/// One thing off: a time, a block, the place, the metadata, a proof.
fn one_off(call: &mut File, random: &mut Random) {
    match random.below(12) {
        0 => call.new.time = call.right.time,
        1 => call.new.time = call.left.time - 1,
        2 => call.new = call.left.clone(),
        3 => call.left.time ^= 1,
        4 => call.right.time ^= 1,
        5 => std::mem::swap(&mut call.left, &mut call.right),
        6 => call.p += 1,
        7 => call.held.count += 1,
        8 => call.held.label[random.index(32)] ^= 1,
        9 => call.second = call.first.clone(),
        10 => call.second[20] ^= 1,
        _ => call.new = call.right.clone(),
    }
}

/// A proof that no archive has, of its last position: no second is needed.
fn at_the_end(random: &mut Random, deck: &mut Deck) {
    let bounds = Bounds {
        downs: false,
        ceiling: random.below(16) as u8,
        ..ANY
    };
    let (left, rank, label) = (random_block(random, 50), 0, [0; 32]);
    let stop = raw::stop(1, tag_of(&left), Side { rank, label });
    let entries = random_path(random, bounds);
    let proof = RawProof { entries, stop };
    for time in [49, 50, 51] {
        let (new, right) = (random_block(random, time), random_block(random, 0));
        let height = random.below(16) as u8;
        let mut call = filing(&proof, &proof, height, [new, left.clone(), right]);
        call.second.clear();
        deck.put(FAMILY, Request::File(call));
    }
}

/// Counts of 4,094 to 4,097 that no archive has, after the head and after a
/// block: two stops side by side.
fn full(deck: &mut Deck) {
    let mut random = Random::part(1, "filing forged full");
    let (left, right) = (block(10, b"left"), block(20, b"right"));
    for (own, rest) in [
        (0, 4093),
        (0, 4095),
        (0, 4096),
        (1, 4092),
        (1, 4093),
        (1, 4094),
        (1, 4095),
    ] {
        let side = Side {
            rank: rest,
            ..random_side(&mut random, 1)
        };
        let last = raw::stop(1, tag_of(&right), side);
        let stop = raw::stop(own, tag_of(&left), last.side());
        let second = RawProof {
            entries: vec![raw::leaf(own, stop.tag)],
            stop: last,
        };
        let entries = Vec::new();
        let first = RawProof { entries, stop };
        for height in [0, 15, 16] {
            for time in [9, 10, 19, 20] {
                let blocks = [block(time, b"late"), left.clone(), right.clone()];
                let call = filing(&first, &second, height, blocks);
                deck.put(FAMILY, Request::File(call));
            }
        }
    }
}

/// The proofs of a row of leaves of own 0 and 1 in turn, which no archive has. A
/// leaf of own 0 adds nothing to the position, and is not the one wanted.
fn leaves_in_turn(row: &Dated) -> Vec<RawProof> {
    let tags = row.blocks.iter().map(tag_of);
    let leaves: Vec<RawEntry> = tags
        .flat_map(|tag| [raw::leaf(0, [0; 32]), raw::leaf(1, tag)])
        .collect();
    let (rank, label) = (0, [0; 32]);
    let mut right = Side { rank, label };
    let mut proofs = Vec::new();
    for (at, leaf) in leaves.iter().enumerate().rev() {
        let stop = raw::stop(leaf.rank, leaf.field, right);
        let entries = leaves[..at].to_vec();
        right = stop.side();
        proofs.push(RawProof { entries, stop });
    }
    proofs
}

/// Each two of their proofs, at every place.
fn own_0(deck: &mut Deck) {
    let row = five_at(&[10, 20, 30]);
    let proofs = leaves_in_turn(&row);
    for p in 0..=row.n() {
        for first in &proofs {
            for second in &proofs {
                let blocks = [late(p), row.block(p), row.block(p + 1)];
                let call = filing(first, second, 1, blocks);
                deck.put(FAMILY, Request::File(File { p, ..call }));
            }
        }
    }
}

/// The filing after the first proof's position of the first of these blocks,
/// between the other two.
fn filing(first: &RawProof, second: &RawProof, height: u8, blocks: [Block; 3]) -> File {
    let [new, left, right] = blocks;
    File {
        held: first.metadata(),
        p: first.position(),
        height,
        new,
        left,
        right,
        first: first.write(),
        second: second.write(),
    }
}
