//! The form of a joint proof: header, kinds, lengths and shared numbers, each
//! broken and kept at its edge.

use super::parts::{check, joined, largest, restated, Parts};
use super::spread;
use crate::cases::archive::{five, flat, numbered, Archive};
use crate::cases::Deck;
use crate::joint::HEADER;
use crate::proof::{self, ENTRY};

const FAMILY: &str = "joint form";

pub fn deal(deck: &mut Deck) {
    header(deck);
    numbers(deck);
    kinds(deck);
    lengths(deck);
    shared_numbers(deck);
    shared_past_a_byte(deck);
    raw_bytes(deck);
}

/// Every value of every byte of the header.
fn header(deck: &mut Deck) {
    let row = five();
    for positions in [vec![2, 3, 5], vec![4]] {
        let honest = row.joint(&positions);
        for at in 0..=HEADER {
            for value in 0..=255 {
                let mut joint = honest.clone();
                joint[at] = value;
                deck.put(FAMILY, check(row.metadata(), &positions, joint));
            }
        }
    }
}

/// As many proofs as positions, and not; with the number of either.
fn numbers(deck: &mut Deck) {
    let row = five();
    for proofs in 0..=5 {
        for asked in 1..=5 {
            let (sent, positions) = (spread(5, proofs), spread(5, asked));
            for number in [proofs, asked, asked + 1, 0, 255] {
                let mut parts = Parts::of(&row.singles(&sent));
                parts.number = number as u8;
                deck.put(FAMILY, check(row.metadata(), &positions, parts.write()));
            }
        }
    }
}

/// Where the records of a joint proof begin.
fn records(parts: &Parts) -> Vec<usize> {
    let mut all = Vec::new();
    let mut at = HEADER + 1;
    for (number, part) in parts.parts.iter().enumerate() {
        at += if number > 0 { 2 } else { 0 };
        let starts = (0..part.records.len() / ENTRY).map(|i| at + ENTRY * i);
        all.extend(starts);
        at += part.records.len();
    }
    all
}

/// Every kind byte at every record, the record's length kept.
fn kinds(deck: &mut Deck) {
    let (row, positions) = (five(), [1, 3, 5]);
    let parts = Parts::of(&row.singles(&positions));
    for at in records(&parts) {
        for kind in 0..=255 {
            let mut joint = parts.write();
            joint[at] = kind;
            deck.put(FAMILY, check(row.metadata(), &positions, joint));
        }
    }
}

/// Cut at every length and longer by up to 80 bytes, of zeros or of a further
/// proof, with the length stated as before and as it is.
fn lengths(deck: &mut Deck) {
    let (row, positions) = (five(), [2, 3]);
    let honest = row.joint(&positions);
    let more = row.joint(&[2, 3, 5]);
    let longer = more[honest.len()..].to_vec();
    for tail in [vec![0; 80], longer] {
        let whole = [&honest[..], &tail].concat();
        for length in 0..=whole.len() {
            let joint = whole[..length].to_vec();
            deck.put(
                FAMILY,
                check(row.metadata(), &positions, restated(joint.clone())),
            );
            deck.put(FAMILY, check(row.metadata(), &positions, joint));
        }
    }
}

/// Rows whose paths share little, much, and all but the stop.
fn shared_numbers(deck: &mut Deck) {
    let rows = [
        (five(), vec![1, 2, 3, 4, 5]),
        (five(), vec![2, 4]),
        (flat(6), vec![1, 2, 5, 6]),
        (
            Archive::new(numbered((1..20).map(|i: u32| i.trailing_zeros() as u8))),
            vec![1, 3, 4, 8, 13, 19],
        ),
    ];
    for (row, positions) in rows {
        for at in 1..positions.len() {
            changed_number(&row, &positions, at, deck);
            less_than_largest(&row, &positions, at, deck);
        }
        nothing_shared(&row, &positions, deck);
    }
}

/// The number in the field alone is another; the records stay.
fn changed_number(row: &Archive, positions: &[u32], at: usize, deck: &mut Deck) {
    let parts = Parts::of(&row.singles(positions));
    let swapped = parts.parts[at].shared.swap_bytes();
    let far = [200, 201, 255, 256, 257, 32_768, 65_534, 65_535, swapped];
    for shared in (0..12).chain(far) {
        let mut changed = parts.clone();
        changed.parts[at].shared = shared;
        deck.put(FAMILY, check(row.metadata(), positions, changed.write()));
    }
}

/// The spelled-out proofs stay, but fewer entries are shared than could be.
fn less_than_largest(row: &Archive, positions: &[u32], at: usize, deck: &mut Deck) {
    let singles = row.singles(positions);
    let shares = largest(&singles);
    for less in 0..shares[at] {
        let mut shares = shares.clone();
        shares[at] = less;
        let joint = Parts::sharing(&singles, &shares).write();
        deck.put(FAMILY, check(row.metadata(), positions, joint));
    }
}

/// Every proof spelled out in full, and every number one less.
fn nothing_shared(row: &Archive, positions: &[u32], deck: &mut Deck) {
    let singles = row.singles(positions);
    let none = vec![0; singles.len()];
    let one_less = largest(&singles).into_iter().map(|n| n.saturating_sub(1));
    for shares in [none, one_less.collect()] {
        let joint = Parts::sharing(&singles, &shares).write();
        deck.put(FAMILY, check(row.metadata(), positions, joint));
    }
    let mut swapped = singles.clone();
    swapped.reverse();
    deck.put(FAMILY, check(row.metadata(), positions, joined(&swapped)));
}

/// Shared numbers over 200 and over 255 are judged as any other: the form is
/// good with the largest alone, and then the long proof has its place.
fn shared_past_a_byte(deck: &mut Deck) {
    let row = flat(700);
    let sets = [
        vec![200, 201],
        vec![202, 203],
        vec![254, 255, 256],
        vec![256, 257, 300],
        vec![257, 513],
        vec![600, 700],
        vec![10, 600, 601],
        vec![1, 2, 255, 256, 257],
    ];
    for positions in sets {
        let singles = row.singles(&positions);
        let shares = largest(&singles);
        deck.put(FAMILY, row.check_joint(&positions));
        for at in 1..positions.len() {
            changed_number(&row, &positions, at, deck);
            for less in [0, shares[at] % 256, shares[at] / 2, shares[at] - 1] {
                let mut shares = shares.clone();
                shares[at] = less;
                let joint = Parts::sharing(&singles, &shares).write();
                deck.put(FAMILY, check(row.metadata(), &positions, joint));
            }
        }
    }
    longest_frame(deck);
}

/// About as many entries as a frame holds, shared by all 32 proofs.
fn longest_frame(deck: &mut Deck) {
    let single = flat(1001).proof(1001);
    let entries = single[3..].len() - 74;
    let path = single[3..3 + entries].repeat(5);
    let long = [&[1, 0, 0][..], &path, &single[3 + entries..]].concat();
    let positions: Vec<u32> = (1..=32).collect();
    let singles = vec![long; 32];
    let held = flat(1001).metadata();
    let shares = largest(&singles);
    for less in [0, 1, 100] {
        let mut shares = shares.clone();
        shares[31] -= less;
        let joint = Parts::sharing(&singles, &shares).write();
        deck.put(FAMILY, check(held, &positions, joint));
    }
}

/// A bit of a leading entry is another in one of two proofs, be it in a field
/// that must be zero or in a level that there is not: fewer entries are shared.
fn raw_bytes(deck: &mut Deck) {
    let (row, positions) = (flat(3), [2, 3]);
    for changed in 0..positions.len() {
        for byte in 0..2 * ENTRY {
            for bit in [1, 0x80] {
                let mut singles = row.singles(&positions);
                singles[changed][proof::HEADER + byte] ^= bit;
                let joint = joined(&singles);
                deck.put(FAMILY, check(row.metadata(), &positions, joint));
            }
        }
    }
}
