//! Insert of the tag that stands at p (document 02, ask 4): at every position,
//! with tags that nearly stand there, and with other reasons to refuse.

use super::archive::{
    column, command, five, flat, numbered, random_row, with_proof, Archive, DRAWS,
};
use super::forged::{one_off, random_proof};
use super::known::five_and_edits;
use super::raw::{self, RawProof};
use super::rows::{random_command, random_length};
use super::{order, Deck};
use crate::command::{Command, Operation, OPERATIONS};
use crate::frames::{Answer, Request};
use crate::metadata::Metadata;
use crate::random::Random;
use crate::refusal::Refusal;
use crate::sha256::{digest, Digest};
use crate::tree::Side;

const FAMILY: &str = "repeated";
const RANDOM: &str = "repeated random rows";
const FORGED: &str = "repeated forged";

pub fn deal(deck: &mut Deck) {
    every_repeat(deck);
    every_tag(deck);
    near_misses(deck);
    few_tags(deck);
    brought_together(deck);
    room(deck);
    other_metadata(deck);
    order::edits(FAMILY, |tag| tag, deck);
    long_rows(deck);
    forged_full(deck);
    forged(1, 1000, deck);
}

/// Insert after p of the tag that stands there.
fn repeat(row: &Archive, p: u32, height: u8) -> Command {
    command(Operation::Insert, p, height, row.tag(p))
}

/// Apply with room for a block more, and the honest call of the gateway.
fn both(row: &Archive, command: Command, deck: &mut Deck) {
    deck.put(FAMILY, row.apply(command, 33));
    deck.put(FAMILY, row.gateway(command));
}

/// A call that 14 refuses. It names no proof, gives back the metadata that was
/// given, and changes no lent byte.
fn put_refused(request: Request, deck: &mut Deck) {
    let (metadata, lent) = match &request {
        Request::Apply { image, .. } => (Metadata::default(), image.clone()),
        Request::Gateway { held, .. } => (*held, Vec::new()),
        _ => panic!("only Apply and the gateway insert"),
    };
    let stated = Answer {
        refusal: Refusal::Repeated.number(),
        metadata,
        lent,
        ..Answer::default()
    };
    deck.put_stated(FAMILY, request, stated);
}

/// The repeat at p, with and without room for it, is refused.
fn put_repeat(row: &Archive, p: u32, height: u8, deck: &mut Deck) {
    let again = repeat(row, p, height);
    for spare in [0, 33] {
        put_refused(row.apply(again, spare), deck);
    }
    put_refused(row.gateway(again), deck);
}

/// Every position of the five and its edits, from 1 on, at every height.
fn every_repeat(deck: &mut Deck) {
    for row in five_and_edits() {
        for p in 1..=row.n() {
            for height in 0..=15 {
                put_repeat(&row, p, height, deck);
            }
        }
    }
}

/// Every command at every position, with the tag of every block, X and zeros.
fn every_tag(deck: &mut Deck) {
    for row in five_and_edits() {
        let mut tags: Vec<Digest> = (0..=row.n()).map(|p| row.tag(p)).collect();
        tags.push(digest(b"X"));
        for p in 0..=row.n() + 1 {
            every_command(&row, p, &tags, deck);
        }
    }
}

/// Every command at p with each of these tags, Insert at three heights.
fn every_command(row: &Archive, p: u32, tags: &[Digest], deck: &mut Deck) {
    for tag in tags {
        for operation in OPERATIONS {
            both(row, command(operation, p, 0, *tag), deck);
        }
        for height in [1, 3] {
            both(row, command(Operation::Insert, p, height, *tag), deck);
        }
    }
}

/// Insert of what is nearly the tag at p.
fn near_misses(deck: &mut Deck) {
    let row = five();
    for p in 1..=row.n() {
        for near in near_tags(row.tag(p)) {
            let height = near[0] % 4;
            both(&row, command(Operation::Insert, p, height, near), deck);
        }
    }
}

/// Each bit changed; two bytes changed by the same bits, and so that their sum
/// stays; the bytes in other orders.
fn near_tags(tag: Digest) -> Vec<Digest> {
    let mut all = vec![tag; 256 + 31 + 31];
    let (bits, rest) = all.split_at_mut(256);
    for (bit, near) in bits.iter_mut().enumerate() {
        near[bit / 8] ^= 1 << (bit % 8);
    }
    let (pairs, sums) = rest.split_at_mut(31);
    for (at, near) in pairs.iter_mut().enumerate() {
        near[at] ^= 0x80;
        near[at + 1] ^= 0x80;
    }
    for (at, near) in sums.iter_mut().enumerate() {
        near[at] = near[at].wrapping_add(1);
        near[at + 1] = near[at + 1].wrapping_sub(1);
    }
    let (mut reversed, mut turned) = (tag, tag);
    reversed.reverse();
    turned.rotate_left(16);
    all.extend([reversed, turned]);
    all
}

/// Zeros, zeros and a 1, and the digest of "A".
pub fn three_tags() -> [Digest; 3] {
    let mut last = [0; 32];
    last[31] = 1;
    [[0; 32], last, digest(b"A")]
}

/// The row of n blocks whose tags of these three are the digits of `number`.
pub fn row_of_three(n: u32, number: u32) -> Archive {
    let tag = |i: u32| three_tags()[(number / 3u32.pow(i) % 3) as usize];
    let height = |i: u32| ((number + i) % 4) as u8;
    let blocks = (0..n).map(|i| column(height(i), tag(i)));
    Archive::new(blocks.collect())
}

/// Every such row of up to three blocks: every command with each of the tags.
fn few_tags(deck: &mut Deck) {
    for n in 0..=3 {
        for number in 0..3u32.pow(n) {
            let row = row_of_three(n, number);
            for p in 0..=n {
                every_command(&row, p, &three_tags(), deck);
            }
        }
    }
}

/// Replace by a neighbour's tag, and Delete between equal tags.
fn brought_together(deck: &mut Deck) {
    let row = five();
    for p in 1..row.n() {
        for (from, to) in [(p, p + 1), (p + 1, p)] {
            let replace = command(Operation::Replace, to, 0, row.tag(from));
            third(&row, replace, p, deck);
        }
    }
    for p in 1..row.n() - 1 {
        let replace = command(Operation::Replace, p + 2, 0, row.tag(p));
        let delete = command(Operation::Delete, p + 1, 0, row.tag(p));
        third(&row.edited(&replace), delete, p, deck);
    }
}

/// An edit that leaves equal tags at p and p + 1, then a third one: before them
/// it is done, after either it is refused.
fn third(row: &Archive, edit: Command, p: u32, deck: &mut Deck) {
    both(row, edit, deck);
    let after = row.edited(&edit);
    for height in 0..=3 {
        let before = command(Operation::Insert, p - 1, height, after.tag(p));
        both(&after, before, deck);
        put_repeat(&after, p, height, deck);
        put_repeat(&after, p + 1, height, deck);
    }
}

/// Spare bytes around the 33 that a grown image needs.
fn room(deck: &mut Deck) {
    for row in [five(), flat(1)] {
        for spare in [0, 1, 31, 32, 33, 34, 66] {
            deck.put(FAMILY, row.apply(repeat(&row, 0, 2), spare));
            for p in 1..=row.n() {
                put_refused(row.apply(repeat(&row, p, 2), spare), deck);
                let mut other = repeat(&row, p, 2);
                other.tag[spare % 32] ^= 1;
                deck.put(FAMILY, row.apply(other, spare));
            }
        }
    }
}

/// A repeat with its honest proof, and a count or a label that is not the row's.
fn other_metadata(deck: &mut Deck) {
    let row = five();
    for p in 0..=row.n() {
        let mut all: Vec<Metadata> = Vec::new();
        for at in 0..32 {
            let mut held = row.metadata();
            held.label[at] ^= 1 << (at % 8);
            all.push(held);
        }
        let counts = [0, 4, 6, 4095, 4096, 4097, u32::MAX].into_iter();
        let label = row.metadata().label;
        all.extend(counts.map(|count| Metadata { count, label }));
        for held in all {
            let again = repeat(&row, p, 1);
            deck.put(FAMILY, with_proof(held, again, row.proof(p)));
        }
    }
}

/// Paths of up to 201 entries, 4,095 and 4,096 blocks: the tag at p and those
/// beside it.
fn long_rows(deck: &mut Deck) {
    let coin = |i: usize| (i + 1).trailing_zeros().min(15) as u8;
    let coins = |n: usize| Archive::new(numbered((0..n).map(coin)));
    for row in [flat(201), coins(4095), coins(4096)] {
        for p in [1, 2, 199, 200, 201, row.n() - 1, row.n()] {
            for from in p - 1..=p + 1 {
                let insert = command(Operation::Insert, p, 2, row.tag(from));
                deck.put(FAMILY, row.gateway(insert));
                deck.put(FAMILY, row.apply(insert, 33 * (p as usize % 2)));
            }
        }
    }
}

/// Random rows of up to three different tags, so that many stand again.
pub fn random_rows(seed: u64, calls: u32, deck: &mut Deck) {
    let mut random = Random::part(seed, "repeated");
    for _ in 0..calls / 10 {
        let (row, tags) = row_of_few_tags(&mut random);
        let spare = random.index(70);
        for operation in OPERATIONS.into_iter().chain([Operation::Insert]) {
            let drawn = random_command(&mut random, operation, row.n());
            let tag = random.pick(&tags);
            let command = Command { tag, ..drawn };
            deck.put(RANDOM, row.apply(command, spare));
            deck.put(RANDOM, row.gateway(command));
        }
    }
}

/// A random row whose tags are one to three: any, one bit off, zeros.
fn row_of_few_tags(random: &mut Random) -> (Archive, Vec<Digest>) {
    let tag = random.digest();
    let mut off = tag;
    off[random.index(32)] ^= 1 << random.below(8);
    let mut tags = vec![tag, off, [0; 32]];
    tags.rotate_left(random.index(3));
    tags.truncate(random.from_to(1, 3) as usize);
    let (n, draw) = (random_length(random), random.pick(&DRAWS));
    let drawn = random_row(random, n, draw).blocks.into_iter();
    let blocks = drawn.map(|block| column(block.height, random.pick(&tags)));
    (Archive::new(blocks.collect()), tags)
}

/// Counts around 4,096 that no archive has.
fn forged_full(deck: &mut Deck) {
    let (tag, label) = (digest(b"tag"), digest(b"label"));
    for rank in 4092..=4096 {
        let (entries, stop) = (Vec::new(), raw::stop(1, tag, Side { rank, label }));
        let proof = RawProof { entries, stop };
        for height in [0, 15, 16] {
            for tag in [tag, label, [0; 32]] {
                let insert = command(Operation::Insert, 1, height, tag);
                let request = with_proof(proof.metadata(), insert, proof.write());
                deck.put(FORGED, request);
            }
        }
    }
}

/// About `calls` calls with well-formed proofs of no archive.
pub fn forged(seed: u64, calls: u32, deck: &mut Deck) {
    let mut random = Random::part(seed, "repeated forged");
    for _ in 0..calls / 10 {
        let zero = random.one_in(5);
        let proof = random_proof(&mut random, zero);
        forged_tags(&proof, &mut random, deck);
        forged_off(&proof, &mut random, deck);
    }
}

/// The stop's tag, a bit off, and other fields of the proof.
fn forged_tags(proof: &RawProof, random: &mut Random, deck: &mut Deck) {
    let (held, p) = (proof.metadata(), proof.position());
    let tag = proof.stop.tag;
    let mut off = tag;
    off[random.index(32)] ^= 1 << random.below(8);
    let passed = proof.entries.last().map_or(off, |entry| entry.field);
    let mut put = |operation, tag| {
        let command = command(operation, p, random.below(16) as u8, tag);
        deck.put(FORGED, with_proof(held, command, proof.write()));
    };
    for tag in [tag, tag, off, passed, proof.stop.right_label] {
        put(Operation::Insert, tag);
    }
    put(Operation::Read, tag);
    put(Operation::Replace, tag);
}

/// Insert of the stop's tag, and one reason more to refuse.
fn forged_off(proof: &RawProof, random: &mut Random, deck: &mut Deck) {
    let mut put = |held: Metadata, p: u32, proof: &RawProof| {
        let insert = command(Operation::Insert, p, (p % 16) as u8, proof.stop.tag);
        deck.put(FORGED, with_proof(held, insert, proof.write()));
    };
    let (held, p, off) = one_off(proof, random);
    put(held, p, &off);
    let (held, p) = (proof.metadata(), proof.position());
    let mut other_right = proof.clone();
    other_right.stop.right_label[random.index(32)] ^= 1;
    put(held, p, &other_right);
    let mut bad_own = proof.clone();
    bad_own.stop.own = 2;
    put(bad_own.metadata(), p, &bad_own);
}
