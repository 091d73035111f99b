//! Blocks that do not match the tags that their proofs show, or nearly do, and
//! blocks that are just too long.

use super::dated::{block, five_at, late, rising, Dated, HEIGHTS};
use crate::block::Block;
use crate::cases::archive::{column, Archive};
use crate::cases::known::varied;
use crate::cases::tags::near_blocks;
use crate::cases::Deck;
use crate::frames::{File, Request};
use crate::sha256::digest;

const FAMILY: &str = "filing blocks";
const LENGTHS: &str = "filing lengths";

pub fn deal(deck: &mut Deck) {
    near_misses(deck);
    other_blocks(deck);
    equal_blocks(deck);
    old_tags(deck);
    long_blocks(deck);
    two_long_blocks(deck);
}

/// Each needed neighbour with another time, other readings, or bytes moved from
/// one to the other.
fn near_misses(deck: &mut Deck) {
    let row = rising();
    let archive = row.archive();
    for p in 0..=row.n() {
        let call = row.file(&archive, p, 1, &late(p));
        for (time, readings) in near_blocks(call.left.time, &call.left.readings) {
            let left = Block { time, readings };
            let call = call.clone();
            deck.put(FAMILY, Request::File(File { left, ..call }));
        }
        for (time, readings) in near_blocks(call.right.time, &call.right.readings) {
            let right = Block { time, readings };
            let call = call.clone();
            deck.put(FAMILY, Request::File(File { right, ..call }));
        }
    }
}

/// At every position each two blocks of the row, the new one and the missing
/// ones, sent as left and right.
fn other_blocks(deck: &mut Deck) {
    for row in [rising(), five_at(&[50, 40, 30]), five_at(&[9, 9, 9])] {
        let archive = row.archive();
        for p in 0..=row.n() {
            let new = late(p);
            let mut sent = row.blocks.clone();
            sent.extend([new.clone(), row.block(0)]);
            let pairs = sent
                .iter()
                .flat_map(|left| sent.iter().map(move |right| (left, right)));
            for (left, right) in pairs {
                let mut call = row.file(&archive, p, 1, &new);
                (call.left, call.right) = (left.clone(), right.clone());
                deck.put(FAMILY, Request::File(call));
            }
        }
    }
}

/// Equal blocks stand for each other: here the first and the third, and all.
fn equal_blocks(deck: &mut Deck) {
    let (a, b) = (block(10, b"a"), block(10, b"b"));
    for blocks in [[&a, &b, &a, &b, &b], [&a; 5]] {
        let row = Dated::new(&HEIGHTS, blocks.into_iter().cloned().collect());
        let archive = row.archive();
        for p in 0..=row.n() {
            for new in [&a, &b, &block(9, b"a"), &block(10, b"c"), &block(11, b"a")] {
                for sent in [&a, &b] {
                    let mut call = row.file(&archive, p, 1, new);
                    deck.put(FAMILY, Request::File(call.clone()));
                    call.left = sent.clone();
                    deck.put(FAMILY, Request::File(call.clone()));
                    call.right = sent.clone();
                    deck.put(FAMILY, Request::File(call));
                }
            }
        }
    }
}

/// A row of document 01's tags, digests of the readings alone, and of zeros:
/// its blocks do not match. Where none is needed the filing is done.
fn old_tags(deck: &mut Deck) {
    let row = rising();
    for zeros in [false, true] {
        let blocks = row.blocks.iter().zip(HEIGHTS);
        let blocks = blocks.map(|(block, height)| match zeros {
            true => column(height, [0; 32]),
            false => column(height, digest(&block.readings)),
        });
        let archive = Archive::new(blocks.collect());
        for p in 0..=row.n() + 1 {
            for sent in [None, Some(block(0, b"")), Some(block(u32::MAX, b""))] {
                let mut call = row.file(&archive, p, 1, &late(p));
                if let Some(sent) = sent {
                    (call.left, call.right) = (sent.clone(), sent);
                }
                deck.put(FAMILY, Request::File(call));
            }
        }
    }
}

/// Lengths around the readings' limit and the digest's, and far over; from
/// 65,532 on the length of the rest does not fit its two bytes.
const LONG: [usize; 12] = [
    0, 4088, 4089, 4090, 4091, 4095, 4096, 4097, 60_000, 65_531, 65_532, 65_536,
];

/// A row of two blocks with so many readings each, whatever their tags are of.
fn two_of(one: usize, two: usize) -> Dated {
    let blocks = vec![block(10, &varied(one)), block(20, &varied(two))];
    Dated::new(&[1, 0], blocks)
}

/// Each of the three blocks with so many readings, the row's own and others.
fn long_blocks(deck: &mut Deck) {
    for length in LONG {
        for (one, two) in [(3, 3), (length, 3), (3, length)] {
            let row = two_of(one, two);
            let archive = row.archive();
            for p in 0..=3 {
                let call = row.file(&archive, p, 2, &late(p));
                let (mut new, mut left, mut right) = (call.clone(), call.clone(), call.clone());
                new.new = block(late(p).time, &varied(length));
                left.left.readings = varied(length);
                right.right.readings = varied(length);
                for call in [call, new, left, right] {
                    deck.put(LENGTHS, Request::File(call));
                }
            }
        }
    }
}

/// Two and three long blocks at once, at the limit and one over.
fn two_long_blocks(deck: &mut Deck) {
    let row = two_of(4089, 4089);
    let archive = row.archive();
    for p in 0..=3 {
        for mask in 0..8 {
            let mut call = row.file(&archive, p, 2, &block(10 * p + 5, &varied(4089)));
            let sent = [&mut call.new, &mut call.left, &mut call.right];
            for (at, block) in sent.into_iter().enumerate() {
                if mask >> at & 1 == 1 {
                    block.readings.resize(4090, 0);
                }
            }
            deck.put(LENGTHS, Request::File(call));
        }
    }
}
