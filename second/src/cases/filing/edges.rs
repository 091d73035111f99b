//! Full archives, paths at their longest, and positions and counts far out.

use super::dated::{block, late, rising, Dated};
use crate::cases::archive::Archive;
use crate::cases::known::varied;
use crate::cases::Deck;
use crate::frames::{File, Request};
use crate::metadata::Metadata;

const FAMILY: &str = "filing edges";

pub fn deal(deck: &mut Deck) {
    full(deck);
    flat(deck);
    far_out(deck);
    other_metadata(deck);
}

/// n blocks, ten seconds apart.
fn row_of(n: usize, height: fn(usize) -> u8) -> Dated {
    let heights: Vec<u8> = (0..n).map(height).collect();
    let blocks = (1..=n as u32).map(|i| block(10 * i, &i.to_be_bytes()));
    Dated::new(&heights, blocks.collect())
}

/// 4,096 blocks are full, 4,095 are not; a long block and a position past the
/// end are told before, a bad proof after.
fn full(deck: &mut Deck) {
    for n in [4095, 4096] {
        let row = row_of(n, |i| (i + 1).trailing_zeros().min(15) as u8);
        let archive = row.archive();
        let n = n as u32;
        for p in [0, 1, 2048, n - 1, n, n + 1] {
            for new in [late(p), row.block(p), block(10 * p, &varied(4090))] {
                for height in [3, 15, 16] {
                    let call = row.file(&archive, p, height, &new);
                    put_and_bad(call, deck);
                }
            }
        }
    }
}

/// The call, and the same with one of its proofs cut short.
fn put_and_bad(call: File, deck: &mut Deck) {
    let (mut one, mut two) = (call.clone(), call.clone());
    one.first.pop();
    two.second.pop();
    for call in [call, one, two] {
        deck.put(FAMILY, Request::File(call));
    }
}

/// All heights 0: position 200 has 200 entries, 201 more than a proof may have.
fn flat(deck: &mut Deck) {
    let row = row_of(202, |_| 0);
    let archive = row.archive();
    for p in [0, 1, 198, 199, 200, 201, 202, 203] {
        for height in [0, 1, 15] {
            for new in [late(p), block(10 * p + 10, b""), row.block(p)] {
                let call = row.file(&archive, p, height, &new);
                deck.put(FAMILY, Request::File(call));
            }
        }
    }
}

/// Positions and counts at the edges of their bytes, with each of the three
/// blocks too long: what is needed goes by the count held, whatever it is.
fn far_out(deck: &mut Deck) {
    let row = rising();
    let archive = row.archive();
    for count in [0, 1, 5, 4095, 4096, 4097, 65_541, 1 << 31, u32::MAX] {
        for p in [
            0,
            1,
            5,
            6,
            4096,
            4097,
            65_536,
            1 << 31,
            u32::MAX - 1,
            u32::MAX,
        ] {
            far_call(&row, &archive, count, p, deck);
        }
    }
}

fn far_call(row: &Dated, archive: &Archive, count: u32, p: u32, deck: &mut Deck) {
    let mut call = row.file(archive, p, 1, &late(2));
    call.held.count = count;
    let (mut left, mut right) = (call.clone(), call.clone());
    left.left.readings = varied(4090);
    right.right.readings = varied(4090);
    for call in [call, left, right] {
        deck.put(FAMILY, Request::File(call));
    }
}

/// A count or a label that is not the row's, with honest proofs.
fn other_metadata(deck: &mut Deck) {
    let row = rising();
    let archive = row.archive();
    for p in 0..=row.n() {
        let call = row.file(&archive, p, 1, &late(p));
        let given = call.held;
        let counts = [0, 1, 4, 6, 4095, 4096, 4097].into_iter();
        let mut all: Vec<Metadata> = counts.map(|count| Metadata { count, ..given }).collect();
        for at in 0..32 {
            let mut held = given;
            held.label[at] ^= 1 << (at % 8);
            all.push(held);
        }
        for held in all {
            let call = call.clone();
            deck.put(FAMILY, Request::File(File { held, ..call }));
        }
    }
}
