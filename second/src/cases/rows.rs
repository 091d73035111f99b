//! Every short row with every command, honest, and random rows to 4,096 blocks.

use super::archive::{column, command, random_row, Archive, DRAWS};
use super::Deck;
use crate::command::{Command, Operation, OPERATIONS};
use crate::random::Random;
use crate::sha256::digest;
use crate::tree::Column;

/// Rows that are gone through have heights 0 to 3.
const HEIGHTS: u32 = 4;

/// All rows up to `longest` blocks with heights 0 to 3.
pub fn every_short_row(longest: u32, deck: &mut Deck) {
    for n in 0..=longest {
        for number in 0..HEIGHTS.pow(n) {
            let row = Archive::new(short_row(n, number, HEIGHTS));
            short_row_calls(&row, number, deck);
        }
    }
}

/// The row of n blocks whose heights, fewer than `heights`, are the digits of
/// `number`.
pub fn short_row(n: u32, number: u32, heights: u32) -> Vec<Column> {
    let height = |i: u32| (number / heights.pow(i) % heights) as u8;
    let tag = |i: u32| match (number + i) % 7 {
        0 => [0; 32],
        _ => digest(&[b'A' + i as u8]),
    };
    (0..n).map(|i| column(height(i), tag(i))).collect()
}

/// Check; at every position and one past the end: Prove, Apply of each
/// operation, and the gateway with Insert at every height 0 to 4.
fn short_row_calls(row: &Archive, number: u32, deck: &mut Deck) {
    let tag = digest(b"new");
    deck.put("short rows", row.check());
    for p in 0..=row.n() + 1 {
        let place = number % 5;
        deck.put("short rows", row.prove(p, place, 310 + place));
        for operation in OPERATIONS {
            let height = ((number + p) % 5) as u8;
            let command = command(operation, p, height, tag);
            deck.put("short rows", row.apply(command, 33 + place as usize));
        }
        for operation in [Operation::Read, Operation::Replace, Operation::Delete] {
            let command = command(operation, p, 0, tag);
            deck.put("short rows", row.gateway(command));
        }
        for height in 0..=4 {
            let insert = command(Operation::Insert, p, height, tag);
            deck.put("short rows", row.gateway(insert));
        }
    }
}

/// How many blocks a random row has: mostly few, now and then thousands.
pub fn random_length(random: &mut Random) -> usize {
    match random.below(200) {
        0 => random.from_to(300, 4096) as usize,
        1..=19 => random.from_to(40, 300) as usize,
        20..=99 => random.from_to(8, 40) as usize,
        _ => random.below(8) as usize,
    }
}

/// About `calls` calls on random rows.
pub fn random(seed: u64, calls: u32, deck: &mut Deck) {
    let mut random = Random::part(seed, "rows");
    for _ in 0..calls / 10 {
        let n = random_length(&mut random);
        let draw = random.pick(&DRAWS);
        let row = random_row(&mut random, n, draw);
        random_calls(&row, &mut random, deck);
    }
}

/// A position, now and then one past the end.
fn random_position(random: &mut Random, n: u32) -> u32 {
    match random.below(24) {
        0 => n + 1,
        1 => n,
        2 => 0,
        _ => random.from_to(0, n),
    }
}

fn random_calls(row: &Archive, random: &mut Random, deck: &mut Deck) {
    let spare = random.index(70);
    deck.put("random rows", row.check());
    for _ in 0..2 {
        let p = random_position(random, row.n());
        let place = random.below(40);
        deck.put("random rows", row.prove(p, place, 7800));
        let operation = random.pick(&OPERATIONS);
        let command = random_command(random, operation, row.n());
        deck.put("random rows", row.apply(command, spare));
    }
    for operation in OPERATIONS {
        let command = random_command(random, operation, row.n());
        deck.put("random rows", row.gateway(command));
    }
    let insert = random_command(random, Operation::Insert, row.n());
    deck.put("random rows", row.gateway(insert));
}

/// A height of up to 15, now and then above.
pub fn random_height(random: &mut Random) -> u8 {
    match random.one_in(24) {
        true => random.below(256) as u8,
        false => random.below(16) as u8,
    }
}

/// A command with such a height.
pub fn random_command(random: &mut Random, operation: Operation, n: u32) -> Command {
    let height = random_height(random);
    let p = random_position(random, n);
    command(operation, p, height, random.digest())
}
