//! Honest joint proofs: every set of positions of short rows, every number of
//! positions, full archives, random rows; and lists that are no set.

use super::parts::check;
use super::{both, random_set, set_of, spread};
use crate::cases::archive::{flat, numbered, random_row, Archive, DRAWS};
use crate::cases::known::five_and_edits;
use crate::cases::rows::short_row;
use crate::cases::Deck;
use crate::frames::LONGEST_JOINT_BUFFER;
use crate::random::Random;

const FIVE: &str = "joint five";
const SHORT: &str = "joint short rows";
const NUMBERS: &str = "joint numbers";
const FULL: &str = "joint full";
const RANDOM: &str = "joint random rows";

pub fn deal(deck: &mut Deck) {
    row_of_five(deck);
    short_rows(deck);
    numbers(deck);
    full(deck);
}

/// Every choice of the values, in their order.
fn choices(values: &[u32]) -> Vec<Vec<u32>> {
    let chosen = |mask: u32| {
        let values = values.iter().enumerate();
        let values = values.filter(|(at, _)| mask >> at & 1 == 1);
        values.map(|(_, value)| *value).collect()
    };
    (0..1 << values.len()).map(chosen).collect()
}

/// Every list of two or three of the values, rising or not.
fn lists(values: &[u32]) -> Vec<Vec<u32>> {
    let mut all = Vec::new();
    for one in values {
        for two in values {
            all.push(vec![*one, *two]);
            all.extend(values.iter().map(|three| vec![*one, *two, *three]));
        }
    }
    all
}

/// Every choice of positions from 0 to one past the end, and every short list.
fn row_of_five(deck: &mut Deck) {
    for row in five_and_edits() {
        let values: Vec<u32> = (0..=row.n() + 1).collect();
        for positions in choices(&values).into_iter().chain(lists(&values)) {
            both(FIVE, &row, &positions, deck);
        }
        for far in [65_536, 65_537, 1 << 31, u32::MAX] {
            for positions in [vec![far], vec![1, far], vec![far, 1]] {
                both(FIVE, &row, &positions, deck);
            }
        }
    }
}

/// All rows up to four blocks with heights 0 to 2, every set of positions: the
/// honest calls, and the check with the proof of another set of that size.
fn short_rows(deck: &mut Deck) {
    for n in 1..=4 {
        for number in 0..3u32.pow(n) {
            let row = Archive::new(short_row(n, number, 3));
            let values: Vec<u32> = (1..=n).collect();
            for positions in choices(&values).iter().skip(1) {
                both(SHORT, &row, positions, deck);
                let other: Vec<u32> = positions.iter().map(|p| p % n + 1).collect();
                let joint = row.joint(&other);
                deck.put(SHORT, check(row.metadata(), positions, joint));
            }
        }
    }
}

/// Every number of positions from 1 to 32: the first, the last, and spread out;
/// and sets of more, which are none.
fn numbers(deck: &mut Deck) {
    let coin = |i: usize| (i + 1).trailing_zeros() as u8;
    let zigzag = |i: usize| (i * 5 % 7) as u8;
    for heights in [coin, zigzag, |_| 0] {
        let row = Archive::new(numbered((0..40).map(heights)));
        for m in (1..=32).chain([33, 34, 40]) {
            let first: Vec<u32> = (1..=m).collect();
            let last: Vec<u32> = (41 - m..=40).collect();
            for positions in [first, last, spread(40, m)] {
                both(NUMBERS, &row, &positions, deck);
            }
        }
    }
    let row = Archive::new(numbered((0..260).map(coin)));
    for m in [33, 64, 128, 254, 255] {
        let positions: Vec<u32> = (1..=m).collect();
        both(NUMBERS, &row, &positions, deck);
    }
}

/// 4,096 blocks with 32 positions; in runs of 128 blocks of height 0 the joint
/// proof is about as long as one of an archive gets.
fn full(deck: &mut Deck) {
    let coin = |i: usize| (i + 1).trailing_zeros().min(15) as u8;
    let runs = |i: usize| u8::from(i % 128 == 0);
    let mut random = Random::part(1, "joint full");
    let row = Archive::new(numbered((0..4096).map(coin)));
    let last: Vec<u32> = (4065..=4096).collect();
    let random_32 = set_of(&mut random, 4096, 32);
    for positions in [spread(4096, 32), last, random_32, vec![4096]] {
        both(FULL, &row, &positions, deck);
    }
    both(FULL, &row, &[1, 2048, 4096, 4097], deck);
    long(&Archive::new(numbered((0..4096).map(runs))), deck);
    both(FULL, &flat(4096), &[1, 100, 200, 4096], deck);
}

/// A joint proof whose length takes three bytes: the honest calls, Prove at the
/// very end of the longest buffer, and the length stated in two bytes.
fn long(row: &Archive, deck: &mut Deck) {
    let positions = spread(4096, 32);
    both(FULL, row, &positions, deck);
    let mut joint = row.joint(&positions);
    let place = LONGEST_JOINT_BUFFER - joint.len() as u32;
    deck.put(
        FULL,
        row.prove_joint(&positions, place, LONGEST_JOINT_BUFFER),
    );
    joint[2] = 0;
    deck.put(FULL, check(row.metadata(), &positions, joint));
}

/// About `calls` calls on random rows of up to 300 blocks.
pub fn random(seed: u64, calls: u32, deck: &mut Deck) {
    let mut random = Random::part(seed, "joint rows");
    for _ in 0..calls / 6 {
        let n = match random.below(40) {
            0 => random.from_to(100, 300),
            1..=9 => random.from_to(20, 100),
            _ => random.from_to(1, 20),
        };
        let draw = random.pick(&DRAWS);
        let row = random_row(&mut random, n as usize, draw);
        random_calls(&row, &mut random, deck);
    }
}

/// The honest calls, a list that may be no set, a buffer of any length, and the
/// proof of another set of the same size.
fn random_calls(row: &Archive, random: &mut Random, deck: &mut Deck) {
    let positions = random_set(random, row.n());
    both(RANDOM, row, &positions, deck);
    let mut list = positions.clone();
    let at = random.index(list.len());
    list[at] = random.below(row.n() + 2);
    both(RANDOM, row, &list, deck);
    let (place, length) = (random.below(60), random.below(6000));
    deck.put(RANDOM, row.prove_joint(&positions, place, length));
    let other = set_of(random, row.n(), positions.len() as u32);
    deck.put(RANDOM, check(row.metadata(), &positions, row.joint(&other)));
}
