//! Honest neighbours and proofs at every position of short rows, with every new
//! time around the neighbours'; and what is not needed being anything at all.

use super::dated::{block, five_at, late, rising, Dated};
use crate::block::Block;
use crate::cases::known::varied;
use crate::cases::Deck;
use crate::frames::{File, Request};

const TIMES: &str = "filing times";
const UNNEEDED: &str = "filing unneeded";

/// Times of up to five blocks: rising, by one, equal, in pairs, falling, at the
/// edges, and up and down.
const PATTERNS: [[u32; 5]; 8] = [
    [10, 20, 30, 40, 50],
    [7, 8, 9, 10, 11],
    [9, 9, 9, 9, 9],
    [5, 5, 6, 6, 7],
    [50, 40, 30, 20, 10],
    [0, 1, 1 << 31, u32::MAX - 1, u32::MAX],
    [
        0x00FF_FFFF,
        0x0100_0000,
        0x0100_0001,
        0x0200_0000,
        0xFF00_0000,
    ],
    [30, 10, 10, u32::MAX, 0],
];

pub fn deal(deck: &mut Deck) {
    for times in PATTERNS {
        for n in 0..=times.len() {
            every_place(&five_at(&times[..n]), deck);
        }
    }
    every_height(deck);
    sent_again(deck);
    unneeded(deck);
}

/// One second before each of the times, at it and after it, and the edges.
fn around(times: &[u32]) -> Vec<u32> {
    let near = |time: &u32| [time.wrapping_sub(1), *time, time.wrapping_add(1)];
    let mut all: Vec<u32> = times.iter().flat_map(near).collect();
    all.extend([0, i32::MAX as u32, 1 << 31, u32::MAX]);
    all.sort_unstable();
    all.dedup();
    all
}

/// Every position and one past the end, with every time around those there are.
fn every_place(row: &Dated, deck: &mut Deck) {
    let archive = row.archive();
    for p in 0..=row.n() + 1 {
        for time in around(&row.times()) {
            let (new, height) = (block(time, b"late"), ((p + time % 5) % 5) as u8);
            let (call, stated) = row.honest(&archive, p, height, &new);
            deck.put_stated(TIMES, Request::File(call), stated);
        }
    }
}

/// In time at every position of the five, at every height and above.
fn every_height(deck: &mut Deck) {
    let row = rising();
    let archive = row.archive();
    for p in 0..=row.n() {
        for height in (0..=17).chain([127, 128, 255]) {
            let (call, stated) = row.honest(&archive, p, height, &late(p));
            deck.put_stated(TIMES, Request::File(call), stated);
        }
    }
}

/// Every block of a row sent again at every place: 14 after itself.
fn sent_again(deck: &mut Deck) {
    for times in PATTERNS {
        let row = five_at(&times);
        let archive = row.archive();
        for p in 0..=row.n() {
            for new in &row.blocks {
                let (call, stated) = row.honest(&archive, p, 1, new);
                deck.put_stated(TIMES, Request::File(call), stated);
            }
        }
    }
}

/// Blocks that are anything: of edge times, just and far too long, of the row.
fn any_blocks(row: &Dated) -> Vec<Block> {
    let mut all = vec![
        block(0, b""),
        block(u32::MAX, b""),
        block(25, &varied(4089)),
        block(25, &varied(4090)),
        block(0, &varied(60_000)),
        block(5, b"late"),
    ];
    all.extend(row.blocks.first().cloned());
    all.extend(row.blocks.last().cloned());
    all
}

/// Second proofs that are anything.
fn any_proofs(row: &Dated) -> Vec<Vec<u8>> {
    let archive = row.archive();
    let mut flipped = archive.proof(row.n());
    flipped[20] ^= 1;
    vec![
        Vec::new(),
        vec![0],
        vec![0; 77],
        archive.proof(0),
        archive.proof(row.n()),
        flipped,
        vec![1; 8000],
        vec![255; 60_000],
    ]
}

/// New blocks with and without a reason of their own to refuse them.
fn any_new(row: &Dated) -> Vec<Block> {
    let mut all = vec![
        block(0, b"late"),
        block(25, b"late"),
        block(u32::MAX, b"late"),
        block(25, &varied(4089)),
    ];
    all.extend(row.blocks.last().cloned());
    all
}

/// At the head the left block, at and past the end the right block and the
/// second proof change nothing.
fn unneeded(deck: &mut Deck) {
    for times in [&[][..], &[20], &[10, 20, 30], &[30, 20, 10]] {
        let row = five_at(times);
        for new in any_new(&row) {
            for sent in any_blocks(&row) {
                at_the_head(&row, &new, &sent, deck);
                at_the_end(&row, &new, |call| call.right = sent.clone(), deck);
            }
            for second in any_proofs(&row) {
                at_the_end(&row, &new, |call| call.second = second.clone(), deck);
            }
        }
    }
}

fn at_the_head(row: &Dated, new: &Block, left: &Block, deck: &mut Deck) {
    let (mut call, stated) = row.honest(&row.archive(), 0, 1, new);
    call.left = left.clone();
    deck.put_stated(UNNEEDED, Request::File(call), stated);
}

/// The call at the end and past it, with what is not needed there changed.
fn at_the_end(row: &Dated, new: &Block, change: impl Fn(&mut File), deck: &mut Deck) {
    let archive = row.archive();
    for p in [row.n(), row.n() + 1] {
        let (mut call, stated) = row.honest(&archive, p, 1, new);
        change(&mut call);
        deck.put_stated(UNNEEDED, Request::File(call), stated);
    }
}
