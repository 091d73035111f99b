//! The edges that document 01 names: full archives, flat rows, deep paths,
//! room for the proof and for the grown image.

use super::archive::{column, command, five, flat, numbered, Archive};
use super::Deck;
use crate::command::{Operation, OPERATIONS};
use crate::frames::{Request, LONGEST_BUFFER};
use crate::sha256::digest;

pub fn deal(deck: &mut Deck) {
    full(deck);
    flat_rows(deck);
    deep_paths(deck);
    deepest_merge(deck);
    room_for_proof(deck);
    room_for_image(deck);
    zero_tags(deck);
}

/// 4,096 blocks: Insert gives 4. 4,095: it is done.
fn full(deck: &mut Deck) {
    let tag = digest(b"one more");
    for n in [4095, 4096] {
        let coin = |i: usize| (i + 1).trailing_zeros().min(15) as u8;
        let row = Archive::new(numbered((0..n).map(coin)));
        deck.put("full", row.check());
        for p in [0, 1, 2048, n as u32 - 1, n as u32, n as u32 + 1] {
            deck.put("full", row.prove(p, 0, 2000));
            for operation in OPERATIONS {
                let command = command(operation, p, 3, tag);
                deck.put("full", row.gateway(command));
                deck.put("full", row.apply(command, 33));
            }
            let insert = command(Operation::Insert, p, 15, tag);
            deck.put("full", row.apply(insert, 32));
        }
    }
}

/// All heights 0: position 200 has 200 entries and is proved, 201 gives 6.
fn flat_rows(deck: &mut Deck) {
    for n in [199, 200, 201, 202, 300, 4096] {
        let row = flat(n);
        deck.put("flat", row.check());
        for p in [0, 1, 199, 200, 201, 202, n as u32] {
            deck.put("flat", row.prove(p, 10, 7700));
            for operation in OPERATIONS {
                for height in [0, 1, 15] {
                    let command = command(operation, p, height, digest(b"flat"));
                    deck.put("flat", row.gateway(command));
                }
            }
        }
    }
}

/// Flat blocks, then heights that rise to 15: downs as well as rights.
fn deep_paths(deck: &mut Deck) {
    let flat = vec![0; 190].into_iter();
    let row = Archive::new(numbered(flat.chain(1..=15)));
    for p in 180..=row.n() {
        deck.put("deep", row.prove(p, 0, 7677));
        for operation in OPERATIONS {
            for height in [0, 1, 7, 15] {
                let command = command(operation, p, height, digest(b"deep"));
                deck.put("deep", row.gateway(command));
            }
        }
    }
}

/// Delete's merged path has up to 214 entries; Insert can make 201.
fn deepest_merge(deck: &mut Deck) {
    for flat in [198, 199, 200] {
        let before = vec![0; flat].into_iter();
        let row = Archive::new(numbered(before.chain([15]).chain(1..=15)));
        for p in flat as u32 - 1..=flat as u32 + 3 {
            let delete = command(Operation::Delete, p, 0, [0; 32]);
            deck.put("deepest merge", row.gateway(delete));
            deck.put("deepest merge", row.apply(delete, 5));
            for height in 0..=15 {
                let insert = command(Operation::Insert, p, height, [1; 32]);
                deck.put("deepest merge", row.gateway(insert));
            }
        }
    }
}

/// Places in a buffer around the last one where a proof of this length fits,
/// past the end and past any sum.
pub fn places_around(buffer: u32, length: u32) -> impl Iterator<Item = u32> {
    let last = buffer.saturating_sub(length);
    let past = [buffer, buffer + 1, 1 << 16, 1 << 31, u32::MAX];
    let wrapping = [u32::MAX - length, u32::MAX - length + 1, u32::MAX - 1];
    let near = [0, last, last + 1, last.saturating_sub(1), last / 2];
    near.into_iter().chain(past).chain(wrapping)
}

/// Every position of the five, at these places of buffers of many lengths.
fn room_for_proof(deck: &mut Deck) {
    let row = five();
    for (p, length) in [(0, 153), (1, 153), (2, 191), (3, 229), (4, 191), (5, 153)] {
        let wide = [0, 1, length, length + 100, LONGEST_BUFFER];
        for buffer in wide.into_iter().chain([length - 1, length + 1]) {
            for place in places_around(buffer, length) {
                deck.put("room", row.prove(p, place, buffer));
            }
        }
    }
    deck.put("room", Archive::new(Vec::new()).prove(0, 0, 77));
    deck.put("room", Archive::new(Vec::new()).prove(0, 0, 76));
}

/// Spare bytes around the 33 that a grown image needs.
fn room_for_image(deck: &mut Deck) {
    for row in [five(), flat(1), flat(0)] {
        for spare in [0, 1, 31, 32, 33, 34, 65, 66, 67, 100] {
            let image = row.image_and(spare);
            deck.put("room", Request::Check { image });
            for p in 0..=row.n() + 1 {
                for operation in OPERATIONS {
                    let command = command(operation, p, 2, digest(b"room"));
                    deck.put("room", row.apply(command, spare));
                }
            }
        }
    }
}

/// A tag of 32 zero bytes with own 1 is an ordinary tag: rows of it alone, and
/// with another tag between two of it, so that each is inserted after the other.
fn zero_tags(deck: &mut Deck) {
    for heights in [[0; 3], [1; 3], [2, 0, 1]] {
        for middle in [[0; 32], [1; 32]] {
            let both = heights.iter().zip([[0; 32], middle, [0; 32]]);
            let blocks = both.map(|(h, tag)| column(*h, tag));
            let row = Archive::new(blocks.collect());
            for p in 0..=row.n() {
                deck.put("zero tags", row.prove(p, 0, 400));
                zero_tag_calls(&row, p, deck);
            }
        }
    }
}

fn zero_tag_calls(row: &Archive, p: u32, deck: &mut Deck) {
    for operation in OPERATIONS {
        for height in 0..=3 {
            for tag in [[0; 32], [1; 32]] {
                let command = command(operation, p, height, tag);
                deck.put("zero tags", row.apply(command, 33));
                deck.put("zero tags", row.gateway(command));
            }
        }
    }
}
