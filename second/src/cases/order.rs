//! Several reasons to refuse at once: which one is given.

use super::archive::{command, five, flat, numbered, with_proof, Archive};
use super::raw::{stop_tag, RawProof};
use super::Deck;
use crate::command::{Operation, OPERATIONS};
use crate::frames::Request;
use crate::metadata::Metadata;
use crate::sha256::Digest;

const FAMILY: &str = "order";

pub fn deal(deck: &mut Deck) {
    prove(deck);
    let fresh = |_| [7; 32];
    edits(FAMILY, fresh, deck);
    gateway_two_proofs(deck);
}

/// Commands of which `new` makes the tag from the one at p; at the gateway, from
/// the one in the stop of the proof that is sent.
pub fn edits(family: &'static str, new: fn(Digest) -> Digest, deck: &mut Deck) {
    apply(family, new, deck);
    apply_full(family, new, deck);
    gateway(family, new, deck);
    gateway_full(family, new, deck);
}

/// The image with one reason for 1.
pub fn broken(mut image: Vec<u8>) -> Vec<u8> {
    image[0] = 2;
    image
}

/// Prove: 1, 2, 6, 5.
fn prove(deck: &mut Deck) {
    for (row, deep) in [(five(), 5), (flat(300), 201), (flat(201), 201)] {
        for image in [row.image(), broken(row.image())] {
            for p in [0, 1, deep - 1, deep, row.n(), row.n() + 1, u32::MAX] {
                for (place, length) in [(0, 8000), (0, 10), (8000, 7000), (u32::MAX, 0)] {
                    let image = image.clone();
                    let request = Request::Prove {
                        p,
                        place,
                        length,
                        image,
                    };
                    deck.put(FAMILY, request);
                }
            }
        }
    }
}

/// Apply: 1, 2, 3, 4, 14, 5.
fn apply(family: &'static str, new: fn(Digest) -> Digest, deck: &mut Deck) {
    for row in [five(), flat(0), flat(1)] {
        for image in [row.image(), row.image_and(33), broken(row.image())] {
            for operation in OPERATIONS {
                for p in [0, 1, row.n(), row.n() + 1, 65_536, 1 << 31, u32::MAX] {
                    for height in [0, 15, 16, 255] {
                        let command = command(operation, p, height, new(row.tag(p)));
                        let image = image.clone();
                        deck.put(family, Request::Apply { command, image });
                    }
                }
            }
        }
    }
}

/// The same where the archive is full, with and without room.
fn apply_full(family: &'static str, new: fn(Digest) -> Digest, deck: &mut Deck) {
    let row = Archive::new(numbered((0..4096).map(|i| (i % 3) as u8)));
    for image in [row.image(), row.image_and(33), broken(row.image())] {
        for p in [0, 4096, 4097] {
            for height in [15, 16] {
                let command = command(Operation::Insert, p, height, new(row.tag(p)));
                let image = image.clone();
                deck.put(family, Request::Apply { command, image });
            }
        }
    }
}

/// A proof, and the same with one to three reasons to refuse it.
fn lies(row: &Archive, p: u32) -> Vec<Vec<u8>> {
    let honest = RawProof::read(&row.proof(p));
    let mut other_place = RawProof::read(&row.proof(if p == 0 { 1 } else { p - 1 }));
    let mut other_label = honest.clone();
    other_label.stop.right_rank += 1;
    other_label.stop.right_label = [9; 32];
    let mut all = vec![honest.write(), other_place.write(), other_label.write()];
    other_place.stop.tag = [9; 32];
    other_place.stop.own = 1;
    all.push(other_place.write());
    for mut lie in [honest, other_place, other_label] {
        lie.stop.own = 2;
        all.push(lie.write());
    }
    all.push(Vec::new());
    all
}

/// Gateway: 12, 2, 3, 4, then 7, 8, 9, then 14.
fn gateway(family: &'static str, new: fn(Digest) -> Digest, deck: &mut Deck) {
    let row = five();
    let given = row.metadata();
    let over = Metadata {
        count: 4097,
        ..given
    };
    let none = Metadata { count: 0, ..given };
    for held in [given, over, none] {
        for p in [0, 3, 5, 6, u32::MAX] {
            for first in lies(&row, p.min(5)) {
                for (operation, height) in with_heights() {
                    let command = command(operation, p, height, new(stop_tag(&first)));
                    let (first, second) = (first.clone(), vec![0; 3]);
                    let request = Request::Gateway {
                        held,
                        command,
                        first,
                        second,
                    };
                    deck.put(family, request);
                }
            }
        }
    }
}

fn with_heights() -> [(Operation, u8); 7] {
    [
        (Operation::Read, 16),
        (Operation::Replace, 255),
        (Operation::Insert, 0),
        (Operation::Insert, 15),
        (Operation::Insert, 16),
        (Operation::Insert, 255),
        (Operation::Delete, 16),
    ]
}

/// At 4,096 blocks: Insert after 4,097 is 2, height 16 is 3, else 4.
fn gateway_full(family: &'static str, new: fn(Digest) -> Digest, deck: &mut Deck) {
    let row = Archive::new(numbered((0..4096).map(|i| (i % 16) as u8)));
    for count in [4096, 4097, u32::MAX] {
        let held = Metadata {
            count,
            ..row.metadata()
        };
        for p in [0, 17, 4096, 4097] {
            for first in [row.proof(p), row.proof(p / 2), vec![5; 77]] {
                for height in [0, 15, 16, 17] {
                    let tag = new(stop_tag(&first));
                    let command = command(Operation::Insert, p, height, tag);
                    deck.put(family, with_proof(held, command, first.clone()));
                }
            }
        }
    }
}

/// The first proof's refusals come before the second's.
fn gateway_two_proofs(deck: &mut Deck) {
    let row = five();
    for p in 1..=5 {
        for first in lies(&row, p - 1) {
            for second in lies(&row, p) {
                let held = row.metadata();
                let command = command(Operation::Delete, p, 0, [7; 32]);
                let first = first.clone();
                let request = Request::Gateway {
                    held,
                    command,
                    first,
                    second,
                };
                deck.put(FAMILY, request);
            }
        }
    }
}
