//! Images that are not quite images, in every call that takes one.

use super::archive::{command, five, numbered, small_row, Archive};
use super::Deck;
use crate::command::{Operation, OPERATIONS};
use crate::frames::Request;
use crate::image::{HEADER, RECORD};
use crate::random::Random;

const FAMILY: &str = "images";

/// Every value of every header byte and of every height, every length.
pub fn every_header_byte(deck: &mut Deck) {
    let whole = Archive::new(numbered([1, 0].into_iter())).image();
    let heights = [HEADER, HEADER + RECORD];
    for at in (0..HEADER).chain(heights) {
        for value in 0..=255 {
            let mut image = whole.clone();
            image[at] = value;
            deck.put(FAMILY, Request::Check { image });
        }
    }
    for length in 0..whole.len() {
        for call in 0..3 {
            deck.put(FAMILY, call_on(whole[..length].to_vec(), call));
        }
    }
    other_counts(deck);
    short_and_long(deck);
}

/// Check, Prove or Apply on a buffer.
fn call_on(image: Vec<u8>, call: u32) -> Request {
    match call {
        0 => Request::Check { image },
        1 => Request::Prove {
            p: 1,
            place: 0,
            length: 200,
            image,
        },
        _ => Request::Apply {
            command: command(Operation::Delete, 1, 0, [0; 32]),
            image,
        },
    }
}

/// A header with this length and n, then bytes up to `whole`.
fn image_of(length: u32, n: u32, whole: usize) -> Vec<u8> {
    let mut image = vec![1];
    image.extend(length.to_be_bytes());
    image.extend((n as u16).to_be_bytes());
    image.resize(whole, 1);
    image
}

/// n and its length together, in buffers that are long enough or not.
fn other_counts(deck: &mut Deck) {
    for n in [0, 1, 2, 3, 1000, 4096, 4097, 5000, 65_535] {
        let rest = 2 + 33 * n;
        let whole = (5 + rest) as usize;
        for buffer in [whole, whole - 1, whole + 1, 73] {
            if buffer < 190_000 && (buffer < 1000 || n > 3) {
                for call in 0..3 {
                    deck.put(FAMILY, call_on(image_of(rest, n, buffer), call));
                }
            }
        }
    }
}

/// Lengths that are right only in 16 bits, or count the wrong bytes.
fn short_and_long(deck: &mut Deck) {
    for (length, n) in [(66_002 - 65_536, 2000), (2 + 33 * 14, 2000), (33 * 5, 5)] {
        for call in 0..3 {
            deck.put(FAMILY, call_on(image_of(length, n, 66_100), call));
        }
    }
    for length in [33 * 5 + 7, 33 * 5 + 5, 33 * 5 + 1, 33 * 5 + 3, 33 * 4 + 2] {
        let mut image = five().image_and(64);
        image[1..5].copy_from_slice(&(length as u32).to_be_bytes());
        deck.put(FAMILY, Request::Check { image });
    }
}

/// Random changes to random images, in random calls.
pub fn random(seed: u64, calls: u32, deck: &mut Deck) {
    let mut random = Random::part(seed, "images");
    for _ in 0..calls {
        let row = small_row(&mut random);
        let mut image = row.image_and(0);
        let spare = random.index(80);
        image.extend(random.bytes(spare));
        for _ in 0..random.below(3) {
            change(&mut image, &mut random);
        }
        let request = random_call(&mut random, image, row.n());
        deck.put(FAMILY, request);
    }
}

/// One change: a bit, a byte, a height, n, the length, the end.
fn change(image: &mut Vec<u8>, random: &mut Random) {
    if image.len() < HEADER {
        return image.extend(random.bytes(5));
    }
    let at = random.index(image.len());
    let records = (image.len() - HEADER) / RECORD;
    match random.below(9) {
        0 => image[at] ^= 1 << random.below(8),
        1 => image[at] = random.draw() as u8,
        2 => image[random.pick(&[0, 1, 2, 3, 4, 5, 6])] ^= 1 << random.below(8),
        3 if records > 0 => {
            image[HEADER + RECORD * random.index(records)] = random.from_to(14, 17) as u8;
        }
        4 => image.truncate(at),
        5 => {
            let more = random.index(70);
            image.extend(random.bytes(more));
        }
        6 | 7 => restate(image, random.index(records + 3)),
        _ => image[0] = random.below(3) as u8,
    }
}

/// States another n with the length that belongs to it.
fn restate(image: &mut [u8], n: usize) {
    let rest = (2 + RECORD * n) as u32;
    image[1..5].copy_from_slice(&rest.to_be_bytes());
    image[5..7].copy_from_slice(&(n as u16).to_be_bytes());
}

fn random_call(random: &mut Random, image: Vec<u8>, n: u32) -> Request {
    let p = random.from_to(0, n + 2);
    match random.below(3) {
        0 => Request::Check { image },
        1 => Request::Prove {
            p,
            place: random.below(100),
            length: random.below(700),
            image,
        },
        _ => {
            let operation = random.pick(&OPERATIONS);
            let height = random.below(20) as u8;
            let command = command(operation, p, height, random.digest());
            Request::Apply { command, image }
        }
    }
}
