//! Random rows with times, honest filings in them, and lies about them.

use super::dated::{block, Dated};
use crate::block::Block;
use crate::cases::archive::{random_row, Archive, DRAWS};
use crate::cases::proofs::{lied_about, random_metadata};
use crate::cases::rows::{random_height, random_length};
use crate::cases::Deck;
use crate::frames::{File, Request};
use crate::random::Random;

const ROWS: &str = "filing random rows";
const LIES: &str = "filing lies";

/// The bytes of a proof of 200 entries.
const LONGEST_PROOF: usize = 7677;

/// About `calls` honest filings in random rows. A path may be too long for a
/// proof there, and then the row alone does not say the answer.
pub fn rows(seed: u64, calls: u32, deck: &mut Deck) {
    let mut random = Random::part(seed, "filing rows");
    for _ in 0..calls / 8 {
        let n = random_length(&mut random);
        let row = random_dated(&mut random, n);
        let archive = row.archive();
        for _ in 0..8 {
            let call = random_call(&row, &archive, &mut random);
            let longest = call.first.len().max(call.second.len());
            let (call, stated) = row.honest(&archive, call.p, call.height, &call.new);
            match longest <= LONGEST_PROOF {
                true => deck.put_stated(ROWS, Request::File(call), stated),
                false => deck.put(ROWS, Request::File(call)),
            }
        }
    }
}

/// About `calls` filings in short rows with one to three lies.
pub fn lies(seed: u64, calls: u32, deck: &mut Deck) {
    let mut random = Random::part(seed, "filing lies");
    for _ in 0..calls / 8 {
        let [row, other] = [0; 2].map(|_| {
            let n = random.index(13);
            random_dated(&mut random, n)
        });
        let (archive, others) = (row.archive(), other.archive());
        for _ in 0..8 {
            let mut call = random_call(&row, &archive, &mut random);
            for _ in 0..random.from_to(1, 3) {
                lie(&mut call, &row, (&archive, &others), &mut random);
            }
            deck.put(LIES, Request::File(call));
        }
    }
}

/// A row of n blocks whose times rise, or are any.
fn random_dated(random: &mut Random, n: usize) -> Dated {
    let draw = random.pick(&DRAWS);
    let drawn = random_row(random, n, draw).blocks;
    let heights: Vec<u8> = drawn.iter().map(|block| block.height).collect();
    let most = random.pick(&[4, 100, u32::MAX]);
    let mut times: Vec<u32> = (0..n).map(|_| random.below(most)).collect();
    if !random.one_in(4) {
        times.sort_unstable();
    }
    let blocks = times.into_iter().map(|time| random_block(random, time));
    let blocks = blocks.collect();
    Dated::new(&heights, blocks)
}

/// Few readings, now and then as many as there may be.
fn random_block(random: &mut Random, time: u32) -> Block {
    let length = match random.one_in(200) {
        true => random.from_to(4085, 4089) as usize,
        false => random.index(4),
    };
    block(time, &random.bytes(length))
}

/// A filing at a place that fits the time, mostly, or anywhere.
fn random_call(row: &Dated, archive: &Archive, random: &mut Random) -> File {
    let n = row.n();
    let near = row.block(random.from_to(0, n + 1));
    let time = near.time.wrapping_add(random.below(3)).wrapping_sub(1);
    let before = row.blocks.iter().take_while(|block| block.time <= time);
    let p = match random.below(8) {
        0 => random.below(n + 2),
        1 => random.below(n + 1),
        _ => before.count() as u32,
    };
    let height = random_height(random);
    let new = match random.one_in(10) {
        true => row.block(p),
        false => random_block(random, time),
    };
    row.file(archive, p, height, &new)
}

/// One lie: about a block, a time, a proof, the place or the metadata.
fn lie(call: &mut File, row: &Dated, archives: (&Archive, &Archive), random: &mut Random) {
    let (archive, other) = archives;
    let any = row.block(random.from_to(0, row.n() + 1));
    match random.below(14) {
        0 => call.left = any,
        1 => call.right = any,
        2 => call.left.time ^= 1 << random.below(32),
        3 => call.right.time ^= 1 << random.below(32),
        4 => call.left.readings.push(random.below(256) as u8),
        5 => std::mem::swap(&mut call.left, &mut call.right),
        6 => call.new.time = any.time,
        7 => call.new = any,
        8 => std::mem::swap(&mut call.first, &mut call.second),
        9 => call.held = random_metadata(archive, random),
        10 => call.p = random.from_to(0, row.n() + 1),
        11 => call.first = lied_about(&call.first, archive, other, random),
        _ => call.second = lied_about(&call.second, archive, other, random),
    }
}
