//! Random lies about the joint proofs of random rows.

use super::parts::{check, joined, largest, restated, Parts};
use super::random_set;
use crate::cases::archive::{random_row, small_row, Archive, DRAWS};
use crate::cases::proofs::{changed_fields, random_metadata, spliced};
use crate::cases::raw::RawProof;
use crate::cases::Deck;
use crate::random::Random;

const FAMILY: &str = "joint lies";

pub fn random(seed: u64, calls: u32, deck: &mut Deck) {
    let mut random = Random::part(seed, "joint lies");
    for _ in 0..calls / 8 {
        let (row, other) = (some_row(&mut random), small_row(&mut random));
        let positions = random_set(&mut random, row.n());
        for _ in 0..6 {
            let joint = lie(&row, &other, &positions, &mut random);
            deck.put(FAMILY, check(row.metadata(), &positions, joint));
        }
        let joint = lie(&row, &other, &positions, &mut random);
        for joint in [joint, row.joint(&positions)] {
            let held = random_metadata(&row, &mut random);
            deck.put(FAMILY, check(held, &positions, joint));
        }
    }
}

/// A row of 1 to 60 blocks, mostly few.
fn some_row(random: &mut Random) -> Archive {
    let n = match random.one_in(5) {
        true => random.from_to(13, 60),
        false => random.from_to(1, 12),
    };
    let draw = random.pick(&DRAWS);
    random_row(random, n as usize, draw)
}

/// The honest joint proof with its bytes, its numbers or its proofs changed.
fn lie(row: &Archive, other: &Archive, positions: &[u32], random: &mut Random) -> Vec<u8> {
    match random.below(3) {
        0 => changed_bytes(row.joint(positions), random),
        1 => changed_parts(&row.singles(positions), random),
        _ => {
            let mut singles = row.singles(positions);
            change_proofs(&mut singles, row, other, random);
            joined(&singles)
        }
    }
}

/// A bit flipped, or cut or longer, with the length stated or not.
fn changed_bytes(mut joint: Vec<u8>, random: &mut Random) -> Vec<u8> {
    match random.below(4) {
        0 => joint.truncate(random.index(joint.len())),
        1 => {
            let more = random.pick(&[1, 2, 38, 74, 76, 114]);
            joint.extend(random.bytes(more));
        }
        _ => {
            let at = random.index(joint.len());
            joint[at] ^= 1 << random.below(8);
            return joint;
        }
    }
    match random.one_in(4) {
        true => joint,
        false => restated(joint),
    }
}

/// Another number or shared number, fewer entries shared, a part left out or
/// twice.
fn changed_parts(singles: &[Vec<u8>], random: &mut Random) -> Vec<u8> {
    let mut shares = largest(singles);
    let mut parts = Parts::of(singles);
    let at = random.index(singles.len());
    let shared = &mut parts.parts[at].shared;
    match random.below(7) {
        0 => *shared = shared.wrapping_add(1),
        1 => *shared = shared.wrapping_sub(1),
        2 => *shared = random.below(12) as u16,
        3 => {
            shares[at] = random.index(shares[at] + 1);
            parts = Parts::sharing(singles, &shares);
        }
        4 => parts.number = random.below(34) as u8,
        5 => drop(parts.parts.remove(at)),
        _ => parts.parts.insert(at, parts.parts[at].clone()),
    }
    parts.write()
}

/// Two proofs swapped, one twice, or one that is another's or changed.
fn change_proofs(singles: &mut [Vec<u8>], row: &Archive, other: &Archive, random: &mut Random) {
    let (at, to) = (random.index(singles.len()), random.index(singles.len()));
    let honest = singles[at].clone();
    match random.below(6) {
        0 => singles.swap(at, to),
        1 => singles[to] = honest,
        2 => singles[at] = row.proof(random.below(row.n() + 1)),
        3 => singles[at] = other.proof(random.below(other.n() + 1)),
        4 => singles[at] = spliced(&honest, &row.proof(random.below(row.n() + 1)), random),
        _ => {
            let all = changed_fields(&RawProof::read(&honest));
            singles[at] = all[random.index(all.len())].write();
        }
    }
}
