//! Call 14: the place of a new time among the times of a row, rising or not.

use crate::answers::counted;
use crate::cases::Deck;
use crate::frames::{FindPlace, Request};
use crate::random::Random;

const FAMILY: &str = "places";

/// The values of the short lists, and the new times.
const VALUES: [u32; 4] = [0, 5, 6, u32::MAX];

/// Every list of up to this many of the values.
const SHORT: u32 = 5;

/// The most times that a frame holds.
const MOST: usize = 49_997;

pub fn deal(deck: &mut Deck) {
    for n in 0..=SHORT {
        for number in 0..4u32.pow(n) {
            let value = |i: u32| VALUES[(number / 4u32.pow(i) % 4) as usize];
            let times: Vec<u32> = (0..n).map(value).collect();
            for new in VALUES {
                put(&times, new, deck);
            }
        }
    }
    edges(deck);
    long_lists(deck);
}

/// The call, with the answer that the times one after the other give.
fn put(times: &[u32], new: u32, deck: &mut Deck) {
    let mut place = 0;
    while place < times.len() && times[place] <= new {
        place += 1;
    }
    let times = times.to_vec();
    let request = Request::FindPlace(FindPlace { times, new });
    deck.put_stated(FAMILY, request, counted(place as u32));
}

/// Times at the edges of one to four bytes, and of a sign.
fn edges(deck: &mut Deck) {
    let edges = [1u32 << 8, 1 << 16, 1 << 24, 1 << 31, u32::MAX];
    let mut times = vec![0, 1];
    times.extend(edges.iter().flat_map(|edge| [edge - 1, *edge]));
    let reversed: Vec<u32> = times.iter().rev().copied().collect();
    for new in times.clone() {
        put(&times, new, deck);
        put(&reversed, new, deck);
        for time in &times {
            put(&[*time], new, deck);
        }
    }
}

/// Lists up to the blocks of a full archive and beyond: rising, falling, equal,
/// and with one time that is later, at many places.
fn long_lists(deck: &mut Deck) {
    for n in [31, 32, 33, 255, 256, 257, 4095, 4096, 4097, 5000, MOST] {
        let last = n as u32;
        let rising: Vec<u32> = (1..=last).map(|i| 10 * i).collect();
        let falling: Vec<u32> = rising.iter().rev().copied().collect();
        for new in [0, 9, 10, 5 * last, 10 * last - 1, 10 * last, u32::MAX] {
            put(&rising, new, deck);
            put(&falling, new, deck);
        }
        for place in [0, 1, n / 2, n - 2, n - 1] {
            let mut times = vec![7; n];
            times[place] = 8;
            put(&times, 7, deck);
            times[place] = 6;
            put(&times, 6, deck);
        }
    }
}

/// Random lists, some in order.
pub fn random(seed: u64, calls: u32, deck: &mut Deck) {
    let mut random = Random::part(seed, "places");
    for _ in 0..calls {
        let n = match random.one_in(20) {
            true => random.index(4100),
            false => random.index(40),
        };
        let most = random.pick(&[3, 50, 10_000, u32::MAX]);
        let mut times: Vec<u32> = (0..n).map(|_| random.below(most)).collect();
        if random.one_in(2) {
            times.sort_unstable();
        }
        let new = match times.is_empty() || random.one_in(3) {
            true => random.below(most),
            false => random
                .pick(&times)
                .wrapping_add(random.below(3))
                .wrapping_sub(1),
        };
        put(&times, new, deck);
    }
}
