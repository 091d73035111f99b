//! Several reasons to refuse a joint call at once: which one is given.

use super::parts::{check, joined, prove, restated};
use crate::cases::archive::{five, flat, Archive};
use crate::cases::order::broken;
use crate::cases::raw::RawProof;
use crate::cases::Deck;
use crate::metadata::Metadata;

const FAMILY: &str = "joint order";

pub fn deal(deck: &mut Deck) {
    prove_order(deck);
    check_order(deck);
}

/// Positions that are a set in range; no set; out of range; and both.
fn lists(n: u32) -> Vec<Vec<u32>> {
    vec![
        vec![1],
        vec![1, n],
        vec![2, 3, n],
        Vec::new(),
        (1..=32).collect(),
        (1..=33).collect(),
        (0..=32).collect(),
        vec![3, 3],
        vec![4, 2],
        vec![1, 2, 2],
        vec![0],
        vec![n + 1],
        vec![0, 3],
        vec![3, n + 1],
        vec![0, n + 1],
        vec![0, 0],
        vec![3, 0],
        vec![n + 1, n],
        vec![u32::MAX],
        vec![u32::MAX, u32::MAX],
        vec![0; 33],
        vec![n + 1; 255],
    ]
}

/// Prove: 1, 13, 2, 6, 5.
fn prove_order(deck: &mut Deck) {
    for row in [five(), flat(300), flat(0)] {
        for image in [row.image(), row.image_and(9), broken(row.image())] {
            let mut all = lists(row.n());
            all.extend([vec![201], vec![0, 201], vec![201, 301], vec![201, 200]]);
            for positions in all {
                prove_calls(&positions, &image, deck);
            }
        }
    }
}

fn prove_calls(positions: &[u32], image: &[u8], deck: &mut Deck) {
    for (place, length) in [(0, 9000), (0, 10), (9000, 8000), (u32::MAX, 0)] {
        let (positions, image) = (positions.to_vec(), image.to_vec());
        deck.put(FAMILY, prove(positions, place, length, image));
    }
}

/// Gateway: 12, 13, 2, then 7 with place 0, then by place.
fn check_order(deck: &mut Deck) {
    let row = five();
    let given = row.metadata();
    let counts = [given.count, 4097, u32::MAX, 4, 0];
    for count in counts {
        let held = Metadata { count, ..given };
        for positions in lists(row.n()) {
            for joint in joints(&row, &positions) {
                deck.put(FAMILY, check(held, &positions, joint));
            }
        }
    }
}

/// The honest joint proof of the positions, and ones with reasons for 7 with
/// place 0, for 7, 8 and 9 by place, and for several of them.
fn joints(row: &Archive, positions: &[u32]) -> Vec<Vec<u8>> {
    let honest = row.joint(positions);
    let mut version = honest.clone();
    version[0] = 2;
    let over = restated([&honest[..], &[0]].concat());
    let short = honest[..honest.len() - 1].to_vec();
    let mut all = vec![honest, version, over, short, Vec::new()];
    let others: Vec<u32> = positions.iter().map(|p| p.wrapping_add(1) % 6).collect();
    all.push(row.joint(&others));
    if let Some((last, before)) = row.singles(positions).split_last() {
        for spoil in [bad_own, bad_label] {
            let mut proof = RawProof::read(last);
            spoil(&mut proof);
            let joint = joined(&[before, &[proof.write()]].concat());
            all.push(restated([&joint[..], &[0]].concat()));
            all.push(joint);
        }
    }
    all
}

fn bad_own(proof: &mut RawProof) {
    proof.stop.own = 2;
}

fn bad_label(proof: &mut RawProof) {
    proof.stop.right_rank += 1;
    proof.stop.right_label = [9; 32];
}
