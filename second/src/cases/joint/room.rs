//! Room for a joint proof, and paths too deep for one.

use super::{both, spread};
use crate::cases::archive::{five, flat, numbered, Archive};
use crate::cases::edges::places_around;
use crate::cases::Deck;
use crate::frames::LONGEST_JOINT_BUFFER;

const ROOM: &str = "joint room";
const DEEP: &str = "joint deep";

pub fn deal(deck: &mut Deck) {
    room(deck);
    room_for_many(deck);
    deep(deck);
}

/// Places around the last one that fits, past the end and past any sum.
fn room(deck: &mut Deck) {
    let row = five();
    for positions in [vec![3], vec![2, 5], vec![1, 2, 3, 4, 5]] {
        let length = row.joint(&positions).len() as u32;
        let near = [length - 1, length, length + 1, length + 100];
        for buffer in near.into_iter().chain([0, 1, LONGEST_JOINT_BUFFER]) {
            for place in places_around(buffer, length) {
                deck.put(ROOM, row.prove_joint(&positions, place, buffer));
            }
        }
    }
}

/// A buffer one byte short, that fits, and one byte longer, for every number.
fn room_for_many(deck: &mut Deck) {
    let row = Archive::new(numbered((0..33).map(|i| (i * 3 % 5) as u8)));
    for m in 1..=32 {
        let positions = spread(33, m);
        let length = row.joint(&positions).len() as u32;
        for (place, buffer) in [
            (0, length - 1),
            (0, length),
            (1, length),
            (7, length + 6),
            (7, length + 7),
            (0, length / m),
        ] {
            deck.put(ROOM, row.prove_joint(&positions, place, buffer));
        }
    }
}

/// Position 200 of a flat row has 200 entries, 201 has one too many; the deep
/// path stands first, last or between.
fn deep_sets(n: u32) -> Vec<Vec<u32>> {
    let mut sets = vec![
        vec![200],
        vec![201],
        vec![199, 200],
        vec![200, 201],
        vec![201, 202],
        vec![1, 201],
        vec![1, 100, 200],
        vec![1, 100, 201, n],
        vec![n],
        (169..=200).collect(),
        (170..=201).collect(),
        (n - 31..=n).collect(),
    ];
    sets.extend((195..=205).map(|p| vec![p - 190, p]));
    sets
}

fn deep(deck: &mut Deck) {
    let risen = vec![0; 190].into_iter().chain(1..=15).chain([0; 5]);
    let rows = [flat(202), flat(300), Archive::new(numbered(risen))];
    for row in rows {
        for positions in deep_sets(row.n()) {
            both(DEEP, &row, &positions, deck);
            for (place, length) in [(0, 10), (9000, 8900), (u32::MAX, 0)] {
                deck.put(DEEP, row.prove_joint(&positions, place, length));
            }
        }
    }
}
