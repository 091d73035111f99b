//! Published digests, all coin words, saved metadata and the row of five.

use super::archive::{command, five, Archive};
use super::Deck;
use crate::answers::tagged;
use crate::block;
use crate::bytes::{self, unhex};
use crate::command::{Operation, OPERATIONS};
use crate::frames::{Answer, Request};
use crate::metadata::{save, Metadata};
use crate::sha256::digest;

/// Published vectors of FIPS 180-4: the four of its examples, then further ones.
/// A text, how often it is repeated, and its digest.
pub const PUBLISHED: [(&str, usize, &str); 10] = [
    (
        "",
        1,
        "e3b0c44298fc1c149afbf4c8996fb92427ae41e4649b934ca495991b7852b855",
    ),
    (
        "abc",
        1,
        "ba7816bf8f01cfea414140de5dae2223b00361a396177a9cb410ff61f20015ad",
    ),
    (
        "abcdbcdecdefdefgefghfghighijhijkijkljklmklmnlmnomnopnopq",
        1,
        "248d6a61d20638b8e5c026930c3e6039a33ce45964ff2167f6ecedd419db06c1",
    ),
    (
        "abcdefghbcdefghicdefghijdefghijkefghijklfghijklmghijklmn\
         hijklmnoijklmnopjklmnopqklmnopqrlmnopqrsmnopqrstnopqrstu",
        1,
        "cf5b16a778af8380036ce59e7b0492370b249b11e8f07a51afac45037afee9d1",
    ),
    (
        "\0",
        55,
        "02779466cdec163811d078815c633f21901413081449002f24aa3e80f0b88ef7",
    ),
    (
        "\0",
        56,
        "d4817aa5497628e7c77e6b606107042bbba3130888c5f47a375e6179be789fbb",
    ),
    (
        "\0",
        57,
        "65a16cb7861335d5ace3c60718b5052e44660726da4cd13bb745381b235a1785",
    ),
    (
        "\0",
        64,
        "f5a5fd42d16a20302798ef6ed309979b43003d2320d9f0e8ea9831a92759fb4b",
    ),
    (
        "\0",
        1000,
        "541b3e9daa09b20bf85fa273e5cbd3e80185aa4ec298e765db87742b70138a53",
    ),
    (
        "A",
        1000,
        "c2e686823489ced2017f6059b8b239318b6364f6dcd835d0a519105a1eadd6e4",
    ),
];

/// Lengths around the padding's and the limit's edges.
const LENGTHS: [usize; 16] = [
    0, 1, 54, 55, 56, 57, 63, 64, 65, 118, 119, 120, 128, 4095, 4096, 4097,
];

pub fn deal(deck: &mut Deck) {
    published(deck);
    lengths(deck);
    saved(deck);
    row_of_five(deck);
}

fn published(deck: &mut Deck) {
    for (text, times, hex) in PUBLISHED {
        let message = text.repeat(times).into_bytes();
        let stated = tagged(bytes::digest(&unhex(hex)));
        deck.put_stated("published", Request::Digest { message }, stated);
    }
}

/// Bytes that change from place to place and from length to length.
pub fn varied(length: usize) -> Vec<u8> {
    (0..length).map(|i| (i * 7 + length) as u8).collect()
}

fn lengths(deck: &mut Deck) {
    let more = [4098, 5000, 65_536, 65_537, 199_000];
    for length in LENGTHS.into_iter().chain(130..260).chain(more) {
        let message = varied(length);
        deck.put("lengths", Request::Digest { message });
    }
}

/// All 65,536; document 01 states five of them.
pub fn coin_words(deck: &mut Deck) {
    for (word, count) in [(1, 0), (6, 1), (8, 3), (32_768, 15), (0, 15)] {
        let stated = Answer {
            count,
            ..Answer::default()
        };
        deck.put_stated("coin words", Request::Height { word }, stated);
    }
    for word in 0..=u16::MAX {
        debug_assert!(block::height(word) <= 15);
        deck.put("coin words", Request::Height { word });
    }
}

/// Counts on both sides of the limit, and every way to break the 39 bytes.
fn saved(deck: &mut Deck) {
    let counts = [0, 1, 255, 256, 4095, 4096, 4097, 65_536, 65_541, 1 << 31];
    for count in counts.into_iter().chain([u32::MAX, u32::MAX - 4095]) {
        for label in [[0; 32], [0xFF; 32], digest(&count.to_be_bytes())] {
            let metadata = Metadata { count, label };
            deck.put("saved", Request::Save { metadata });
            let mut saved = vec![1, 0, 36];
            saved.extend(count.to_be_bytes());
            saved.extend(label);
            deck.put("saved", Request::Load { saved });
        }
    }
    let label = digest(b"saved");
    let whole = save(&Metadata { count: 7, label }).expect("7 is within the limits");
    for length in 0..=whole.len() + 40 {
        let mut saved = whole.to_vec();
        saved.resize(length, 0);
        deck.put("saved", Request::Load { saved });
    }
    for at in 0..7 {
        for value in 0..=255 {
            let mut saved = whole.to_vec();
            saved[at] = value;
            deck.put("saved", Request::Load { saved });
        }
    }
}

/// The row of five and the rows of P5 to P9.
pub fn five_and_edits() -> [Archive; 5] {
    let x = digest(b"X");
    let five = five();
    let with_x = five.edited(&command(Operation::Insert, 3, 1, x));
    let without_b = five.edited(&command(Operation::Delete, 2, 0, x));
    let without_a = five.edited(&command(Operation::Delete, 1, 0, x));
    let empty = Archive::new(Vec::new());
    [five, with_x, without_b, without_a, empty]
}

/// Every command at every position and beyond, with a tag that stands nowhere.
fn row_of_five(deck: &mut Deck) {
    for row in five_and_edits() {
        every_command(&row, deck);
    }
}

fn every_command(row: &Archive, deck: &mut Deck) {
    deck.put("row of five", row.check());
    for p in 0..=row.n() + 2 {
        deck.put("row of five", row.prove(p, 3, 300));
        for operation in OPERATIONS {
            for height in 0..=17 {
                let command = command(operation, p, height, digest(b"Y"));
                deck.put("row of five", row.apply(command, 40));
                deck.put("row of five", row.gateway(command));
            }
        }
    }
}
