//! Spelled-out proofs that a single check refuses, at every place of a joint
//! proof of good form.

use super::parts::{check, joined};
use super::spread;
use crate::cases::archive::{five, flat, numbered, Archive};
use crate::cases::raw::{self, RawProof};
use crate::cases::Deck;
use crate::frames::Request;
use crate::metadata::Metadata;

const FAMILY: &str = "joint spelled";
const FLIPPED: &str = "joint flipped";

pub fn deal(deck: &mut Deck) {
    every_place(deck);
    two_places(deck);
    other_sets(deck);
    other_metadata(deck);
    deeper_and_deeper(deck);
    every_bit(deck);
}

type Change = fn(&mut RawProof);

/// A row with 40 blocks, whose paths are of many lengths.
fn forty() -> Archive {
    Archive::new(numbered((0..40).map(|i| (i * 11 % 6) as u8)))
}

/// The positions of sets of 1, 2, 3, 5, 31 and 32.
fn sets() -> Vec<Vec<u32>> {
    let numbers = [1, 2, 3, 5, 31, 32].into_iter();
    numbers.map(|m| spread(40, m)).collect()
}

/// The honest joint proof with the proofs at some places, from 0 on, changed.
fn changed_at(row: &Archive, positions: &[u32], changes: &[(usize, Change)]) -> Request {
    let mut singles = row.singles(positions);
    for (at, change) in changes {
        let mut proof = RawProof::read(&singles[*at]);
        change(&mut proof);
        singles[*at] = proof.write();
    }
    check(row.metadata(), positions, joined(&singles))
}

/// Changes that break a rule of the proof section and leave the kinds.
const BAD: [Change; 9] = [
    |proof| proof.stop.level = 1,
    |proof| proof.stop.own = 2,
    |proof| proof.stop.right_rank = 4097,
    |proof| {
        proof.stop.own = 0;
        proof.stop.tag = [5; 32];
    },
    |proof| proof.entries.insert(0, raw::leaf(2, [5; 32])),
    |proof| {
        let entry = raw::leaf(1, [5; 32]);
        proof.entries.insert(0, entry);
    },
    |proof| {
        let mut entry = proof.entries[0];
        entry.level = 16;
        proof.entries[0] = entry;
    },
    |proof| {
        let last = proof.entries.len() - 1;
        (proof.entries[last].kind, proof.entries[last].level) = (0, 0);
    },
    |proof| proof.entries.resize(201, raw::leaf(1, [5; 32])),
];

/// Changes that prove another position, or the head.
const ASTRAY: [Change; 4] = [
    |proof| proof.entries.push(raw::leaf(1, [5; 32])),
    |proof| {
        proof.stop.own = 0;
        proof.stop.tag = [0; 32];
    },
    |proof| {
        proof.entries.clear();
        proof.stop.own = 0;
        proof.stop.tag = [0; 32];
    },
    |proof| proof.entries.resize(200, raw::leaf(1, [5; 32])),
];

/// Changes of tag, side or rank that leave the position.
const OTHER_LABEL: [Change; 6] = [
    |proof| proof.stop.tag[31] ^= 1,
    |proof| {
        proof.stop.right_rank += 1;
        proof.stop.right_label = [5; 32];
    },
    |proof| proof.entries[0].field[0] ^= 0x80,
    |proof| {
        let last = proof.entries.len() - 1;
        proof.entries[last].level ^= u8::from(proof.entries[last].level > 1);
        proof.stop.tag[0] ^= 1;
    },
    |proof| proof.entries.push(raw::leaf(0, [0; 32])),
    |proof| {
        for entry in proof.entries.iter_mut().filter(|entry| entry.kind == 0) {
            entry.rank += 1;
        }
        proof.stop.tag[1] ^= 1;
    },
];

/// Every change at every place of sets of every size.
fn every_place(deck: &mut Deck) {
    let row = forty();
    let changes = BAD.iter().chain(&ASTRAY).chain(&OTHER_LABEL);
    for change in changes {
        for positions in sets() {
            for at in 0..positions.len() {
                deck.put(FAMILY, changed_at(&row, &positions, &[(at, *change)]));
            }
        }
    }
}

/// Two places of a set of m, from 0 on; of a long set the outer ones.
fn pairs(m: usize) -> Vec<(usize, usize)> {
    let at: Vec<usize> = match m <= 5 {
        true => (0..m).collect(),
        false => vec![0, 1, 2, m / 2, m - 2, m - 1],
    };
    let mut all = Vec::new();
    for (number, one) in at.iter().enumerate() {
        all.extend(at[number + 1..].iter().map(|two| (*one, *two)));
    }
    all
}

/// Two refused proofs, with each two of the refusals 7, 8 and 9: the first in
/// the order of places is told.
fn two_places(deck: &mut Deck) {
    let row = forty();
    let faults = [BAD[1], BAD[8], ASTRAY[1], ASTRAY[0], OTHER_LABEL[0]];
    for positions in sets() {
        for (one, two) in pairs(positions.len()) {
            for first in faults {
                for second in faults {
                    let changes = [(one, first), (two, second)];
                    deck.put(FAMILY, changed_at(&row, &positions, &changes));
                }
            }
        }
    }
}

/// The joint proof of every set of two and of three of the five, for every
/// other; and the honest proofs in other orders.
fn other_sets(deck: &mut Deck) {
    let row = five();
    for m in 1..=3 {
        let lists = lists_of(m);
        for positions in lists.iter().filter(|list| rises(list)) {
            for sent in &lists {
                deck.put(FAMILY, check(row.metadata(), positions, row.joint(sent)));
            }
        }
    }
}

fn rises(list: &[u32]) -> bool {
    list.windows(2).all(|pair| pair[0] < pair[1])
}

/// All lists of m positions of the five.
fn lists_of(m: u32) -> Vec<Vec<u32>> {
    let digit = |number: u32, at: u32| number / 5u32.pow(at) % 5 + 1;
    let list = |number: u32| (0..m).map(|at| digit(number, at)).collect();
    (0..5u32.pow(m)).map(list).collect()
}

/// Honest joint proofs, but another count or label is held.
fn other_metadata(deck: &mut Deck) {
    let row = forty();
    let given = row.metadata();
    let mut label = given.label;
    label[7] ^= 1;
    for positions in sets() {
        for count in [39, 40, 41, 4096, 4097] {
            for label in [given.label, label, [0; 32]] {
                let held = Metadata { count, label };
                deck.put(FAMILY, check(held, &positions, row.joint(&positions)));
            }
        }
    }
}

/// By sharing, proofs of up to 200 entries and more: the first that has 201 is
/// at every place from 1 to 32.
fn deeper_and_deeper(deck: &mut Deck) {
    let row = flat(300);
    for from in 169..=202 {
        let positions: Vec<u32> = (from..from + 32).collect();
        deck.put(FAMILY, row.check_joint(&positions));
        deck.put(FAMILY, row.check_joint(&positions[..5]));
        let sparse = [1, 7, from, from + 1, 300];
        deck.put(FAMILY, row.check_joint(&sparse));
    }
}

/// Every bit of the joint proof of positions 2, 3 and 5 of the five, flipped.
fn every_bit(deck: &mut Deck) {
    let (row, positions) = (five(), [2, 3, 5]);
    let honest = row.joint(&positions);
    for bit in 0..8 * honest.len() {
        let mut joint = honest.clone();
        joint[bit / 8] ^= 1 << (bit % 8);
        deck.put(FLIPPED, check(row.metadata(), &positions, joint));
    }
}
