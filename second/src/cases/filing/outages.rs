//! Whole outages: the blocks of a row come in another order, and each is filed
//! at the place that call 14 finds, with the metadata of the filing before.

use super::dated::{block, Dated};
use crate::answers::counted;
use crate::block::{self as blocks, Block};
use crate::cases::Deck;
use crate::frames::{FindPlace, Request};
use crate::random::Random;

const FAMILY: &str = "filing outages";

pub fn deal(deck: &mut Deck) {
    let mut random = Random::part(1, "outages");
    for (n, apart) in [
        (1, 60),
        (2, 60),
        (8, 60),
        (20, 60),
        (20, 2),
        (12, 0),
        (40, 9),
    ] {
        outage(&mut random, n, apart, deck);
    }
}

pub fn random(seed: u64, calls: u32, deck: &mut Deck) {
    let mut random = Random::part(seed, "random outages");
    for _ in 0..calls / 40 {
        let (n, apart) = (random.from_to(1, 40), random.pick(&[0, 1, 5, 3600]));
        outage(&mut random, n, apart, deck);
    }
}

/// n blocks of times up to so far apart, some again, in any order.
fn sent(random: &mut Random, n: u32, apart: u32) -> Vec<Block> {
    let mut time = 1_700_000_000;
    let mut left = Vec::new();
    for number in 0..n {
        time += random.below(apart + 1);
        left.push(block(time, &number.to_be_bytes()));
        if random.one_in(6) {
            left.push(block(time, &number.to_be_bytes()));
        }
    }
    let mut shuffled = Vec::new();
    while !left.is_empty() {
        shuffled.push(left.swap_remove(random.index(left.len())));
    }
    shuffled
}

/// Every block of an outage finds its place and is filed, or is refused as one
/// that stands there already.
fn outage(random: &mut Random, n: u32, apart: u32, deck: &mut Deck) {
    let mut row = Dated::new(&[], Vec::new());
    for new in sent(random, n, apart) {
        let height = blocks::height(random.draw() as u16);
        row = filed(&row, &new, height, deck);
    }
    let times = row.times();
    assert!(times.windows(2).all(|two| two[0] <= two[1]));
}

/// The row after one more block. Its times never fall, so that a place found
/// has all times up to the new one before it.
fn filed(row: &Dated, new: &Block, height: u8, deck: &mut Deck) -> Dated {
    let (times, archive) = (row.times(), row.archive());
    let place = times.iter().filter(|time| **time <= new.time).count() as u32;
    let find = FindPlace {
        times,
        new: new.time,
    };
    deck.put_stated(FAMILY, Request::FindPlace(find), counted(place));
    let (call, stated) = row.honest(&archive, place, height, new);
    let done = stated.refusal == 0;
    deck.put_stated(FAMILY, Request::File(call), stated);
    match done {
        true => row.filed(place, height, new),
        false => row.clone(),
    }
}
