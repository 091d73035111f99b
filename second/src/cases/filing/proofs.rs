//! Proofs that are not the ones wanted: of other positions, of other archives,
//! of the row after the filing, changed, cut and longer.

use super::dated::{block, five_at, late, rising, Dated};
use crate::cases::archive::Archive;
use crate::cases::proofs::changed_fields;
use crate::cases::raw::RawProof;
use crate::cases::Deck;
use crate::frames::{File, Request};

const FAMILY: &str = "filing proofs";

pub fn deal(deck: &mut Deck) {
    every_pair(deck);
    other_archives(deck);
    every_rule(deck);
    every_bit(deck);
    lengths(deck);
    both_repeated(deck);
}

/// The honest call that files a block in time after p of the rising five.
fn honest(row: &Dated, p: u32) -> File {
    row.file(&row.archive(), p, 1, &late(p))
}

fn with_first(call: &File, first: Vec<u8>) -> Request {
    let call = call.clone();
    Request::File(File { first, ..call })
}

fn with_second(call: &File, second: Vec<u8>) -> Request {
    let call = call.clone();
    Request::File(File { second, ..call })
}

/// At every place the proofs of each two positions.
fn every_pair(deck: &mut Deck) {
    let row = rising();
    let archive = row.archive();
    for p in 0..=row.n() {
        for one in 0..=row.n() {
            for two in 0..=row.n() {
                let mut call = honest(&row, p);
                call.first = archive.proof(one);
                deck.put(FAMILY, with_second(&call, archive.proof(two)));
            }
        }
    }
}

/// The rows that a mix-up might take for this one: with the block filed, with
/// other times, of fewer blocks, upside down.
fn other_archives(deck: &mut Deck) {
    let row = rising();
    for p in 0..=row.n() {
        let after = row.filed(p, 1, &late(p)).archive();
        let others = [
            after,
            five_at(&[11, 21, 31, 41, 51]).archive(),
            five_at(&[10, 20, 30, 40]).archive(),
            five_at(&[50, 40, 30, 20, 10]).archive(),
        ];
        for other in &others {
            mixed_up(&row, p, other, deck);
        }
    }
}

/// First, second or both from the other archive, for p to p + 2; and its
/// metadata with the row's own proofs.
fn mixed_up(row: &Dated, p: u32, other: &Archive, deck: &mut Deck) {
    let call = honest(row, p);
    for from in p..=p + 2 {
        deck.put(FAMILY, with_first(&call, other.proof(from)));
        deck.put(FAMILY, with_second(&call, other.proof(from)));
        let mut both = call.clone();
        both.first = other.proof(p);
        deck.put(FAMILY, with_second(&both, other.proof(from)));
        both.held = other.metadata();
        deck.put(FAMILY, with_second(&both, call.second.clone()));
        deck.put(FAMILY, with_second(&both, other.proof(from)));
    }
}

/// Each field of each entry and stop of either proof, changed.
fn every_rule(deck: &mut Deck) {
    let row = rising();
    for p in [0, 2] {
        let call = honest(&row, p);
        for proof in changed_fields(&RawProof::read(&call.second)) {
            deck.put(FAMILY, with_second(&call, proof.write()));
        }
        for proof in changed_fields(&RawProof::read(&call.first)) {
            deck.put(FAMILY, with_first(&call, proof.write()));
        }
    }
}

/// Every bit of the second proof flipped.
fn every_bit(deck: &mut Deck) {
    let call = honest(&rising(), 4);
    for bit in 0..8 * call.second.len() {
        let mut second = call.second.clone();
        second[bit / 8] ^= 1 << (bit % 8);
        deck.put(FAMILY, with_second(&call, second));
    }
}

/// Every length of the second proof, and bytes moved from one to the other.
fn lengths(deck: &mut Deck) {
    let call = honest(&rising(), 2);
    for length in 0..=call.second.len() + 40 {
        let mut second = call.second.clone();
        second.resize(length, 0);
        deck.put(FAMILY, with_second(&call, second));
    }
    let joined = [&call.first[..], &call.second].concat();
    for cut in (0..=joined.len()).step_by(3) {
        let mut moved = call.clone();
        moved.first = joined[..cut].to_vec();
        deck.put(FAMILY, with_second(&moved, joined[cut..].to_vec()));
    }
}

/// A block sent again, with every kind of second proof: 14 comes first.
fn both_repeated(deck: &mut Deck) {
    let row = rising();
    for p in 1..=row.n() {
        let call = row.file(&row.archive(), p, 1, &row.block(p));
        let mut flipped = call.second.clone();
        flipped[3] ^= 128;
        let seconds = [flipped, call.first.clone(), Vec::new(), call.second.clone()];
        for second in seconds {
            let mut sent = call.clone();
            deck.put(FAMILY, with_second(&sent, second.clone()));
            sent.left = block(0, b"another");
            deck.put(FAMILY, with_second(&sent, second.clone()));
            sent.right = block(0, b"another");
            deck.put(FAMILY, with_second(&sent, second));
        }
    }
}
