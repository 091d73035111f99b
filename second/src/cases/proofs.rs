//! Proofs that are not quite the honest ones: against the honest metadata, and
//! against the metadata that a gateway without the rules would work out.

use super::archive::{command, five, small_row, with_proof, Archive};
use super::raw::{RawEntry, RawProof};
use super::Deck;
use crate::command::{Operation, OPERATIONS};
use crate::frames::Request;
use crate::metadata::Metadata;
use crate::proof::{ENTRY, HEADER, STOP};
use crate::random::Random;

const ONE_PROOF: [Operation; 3] = [Operation::Read, Operation::Replace, Operation::Insert];

/// A one-proof command with this metadata and proof.
pub fn one_proof(operation: Operation, p: u32, held: Metadata, first: Vec<u8>) -> Request {
    let height = (p % 4) as u8;
    with_proof(held, command(operation, p, height, [0x77; 32]), first)
}

/// Delete with this metadata and these proofs.
pub fn two_proofs(p: u32, held: Metadata, first: Vec<u8>, second: Vec<u8>) -> Request {
    let command = command(Operation::Delete, p, 0, [0x77; 32]);
    Request::Gateway {
        held,
        command,
        first,
        second,
    }
}

/// Whether the bytes are whole entries and a stop, whatever is in them.
fn is_whole(proof: &[u8]) -> bool {
    let path = proof.len().checked_sub(HEADER + STOP);
    path.map_or(false, |length| length / ENTRY * ENTRY == length)
}

/// Every bit of the proof of position 3 of the five, flipped.
pub fn every_bit(deck: &mut Deck) {
    let row = five();
    let honest = row.proof(3);
    for bit in 0..8 * honest.len() {
        let mut proof = honest.clone();
        proof[bit / 8] ^= 1 << (bit % 8);
        deck.put(
            "flipped",
            one_proof(Operation::Read, 3, row.metadata(), proof.clone()),
        );
        let raw = RawProof::read(&proof);
        let (held, p) = (raw.metadata(), raw.position());
        deck.put("flipped", one_proof(ONE_PROOF[bit % 3], p, held, proof));
    }
    for bit in 0..8 * honest.len() {
        let (mut first, second) = (honest.clone(), row.proof(4));
        first[bit / 8] ^= 1 << (bit % 8);
        deck.put("flipped", two_proofs(4, row.metadata(), first, second));
    }
}

/// Every rule of the proof section, broken and kept at its edge.
pub fn every_rule(deck: &mut Deck) {
    let row = five();
    for p in 0..=5 {
        let honest = RawProof::read(&row.proof(p));
        for proof in changed_fields(&honest) {
            rule_calls(&row, p, &proof, deck);
        }
    }
    for p in [1, 3, 4, 5] {
        let (first, second) = (row.proof(p - 1), row.proof(p));
        let held = row.metadata();
        for proof in changed_fields(&RawProof::read(&first)) {
            let request = two_proofs(p, held, proof.write(), second.clone());
            deck.put("rules", request);
        }
        for proof in changed_fields(&RawProof::read(&second)) {
            let request = two_proofs(p, held, first.clone(), proof.write());
            deck.put("rules", request);
        }
    }
    lengths(deck);
}

/// The changed proof with its own metadata and position, and with the honest.
fn rule_calls(row: &Archive, p: u32, proof: &RawProof, deck: &mut Deck) {
    let (held, at) = (proof.metadata(), proof.position());
    for operation in ONE_PROOF {
        deck.put("rules", one_proof(operation, at, held, proof.write()));
    }
    let honest = one_proof(Operation::Read, p, row.metadata(), proof.write());
    deck.put("rules", honest);
    let narrow = Metadata {
        count: held.count % 65_536,
        ..held
    };
    let request = one_proof(Operation::Read, at % 65_536, narrow, proof.write());
    deck.put("rules", request);
}

const RANKS: [u32; 13] = [
    0,
    1,
    2,
    255,
    256,
    257,
    4095,
    4096,
    4097,
    65_536,
    65_537,
    1 << 31,
    u32::MAX,
];

/// Each field of each entry and of the stop, changed one at a time.
pub fn changed_fields(honest: &RawProof) -> Vec<RawProof> {
    let mut all = vec![honest.clone()];
    for at in 0..honest.entries.len() {
        for entry in changed_entries(honest.entries[at]) {
            let mut proof = honest.clone();
            proof.entries[at] = entry;
            all.push(proof);
        }
        let mut without = honest.clone();
        let entry = without.entries.remove(at);
        let mut twice = honest.clone();
        twice.entries.insert(at, entry);
        let mut behind = without.clone();
        behind.entries.push(entry);
        all.extend([without, twice, behind]);
    }
    all.extend(changed_stops(honest));
    all
}

fn changed_entries(honest: RawEntry) -> Vec<RawEntry> {
    let mut all = Vec::new();
    for kind in [0, 1, 2, 3, 128, 255] {
        all.push(RawEntry { kind, ..honest });
    }
    for level in (0..=17).chain([127, 128, 255]) {
        for kind in 0..=1 {
            all.push(RawEntry {
                kind,
                level,
                ..honest
            });
        }
    }
    for rank in RANKS {
        all.push(RawEntry { rank, ..honest });
    }
    let field = [0; 32];
    all.push(RawEntry { field, ..honest });
    for rank in 0..=2 {
        all.push(RawEntry {
            rank,
            field,
            level: 0,
            kind: 1,
        });
    }
    all
}

fn changed_stops(honest: &RawProof) -> Vec<RawProof> {
    let mut all = Vec::new();
    let mut add = |change: &dyn Fn(&mut RawProof)| {
        let mut proof = honest.clone();
        change(&mut proof);
        all.push(proof);
    };
    for kind in [0, 1, 3, 255] {
        add(&|proof| proof.stop.kind = kind);
    }
    for level in [1, 2, 15, 16, 255] {
        add(&|proof| proof.stop.level = level);
    }
    for rank in RANKS {
        add(&|proof| proof.stop.own = rank);
        add(&|proof| proof.stop.right_rank = rank);
        add(&|proof| {
            proof.stop.right_rank = rank;
            proof.stop.right_label = [0x99; 32];
        });
    }
    for (own, tag) in [(0, [0; 32]), (1, [0; 32]), (0, [1; 32]), (1, [1; 32])] {
        add(&|proof| {
            proof.stop.own = own;
            proof.stop.tag = tag;
        });
    }
    for at in [0, 15, 31] {
        add(&|proof| proof.stop.right_label[at] ^= 1);
        add(&|proof| proof.stop.tag[at] ^= 1);
    }
    all
}

/// Lengths stated and lent that do not belong together, versions, 201 entries.
fn lengths(deck: &mut Deck) {
    let row = five();
    let honest = row.proof(3);
    for length in 0..=honest.len() + 80 {
        for restated in [false, true] {
            let mut proof = honest.clone();
            proof.resize(length, 0);
            if restated && length >= HEADER {
                let rest = (length - HEADER) as u16;
                proof[1..3].copy_from_slice(&rest.to_be_bytes());
            }
            deck.put(
                "lengths of proofs",
                one_proof(Operation::Read, 3, row.metadata(), proof),
            );
        }
    }
    long_paths(deck);
}

/// Paths of about 200 entries that keep every other rule.
fn long_paths(deck: &mut Deck) {
    let honest = RawProof::read(&five().proof(3));
    for k in [199, 200, 201, 202, 300, 1000, 1722, 1723, 1724] {
        let mut proof = honest.clone();
        let passed = proof.entries[3];
        proof.entries.resize(k, passed);
        let (held, p) = (proof.metadata(), proof.position());
        for operation in ONE_PROOF {
            let request = one_proof(operation, p, held, proof.write());
            deck.put("lengths of proofs", request);
        }
    }
    let (first, second) = (vec![1; 150_000], vec![1; 49_000]);
    let held = honest.metadata();
    deck.put("lengths of proofs", two_proofs(3, held, first, second));
    let (first, second) = (five().proof(2), vec![1; 190_000]);
    deck.put("lengths of proofs", two_proofs(3, held, first, second));
}

/// Random lies about random rows.
pub fn random(seed: u64, calls: u32, deck: &mut Deck) {
    let mut random = Random::part(seed, "proofs");
    let mut dealt = 0;
    while dealt < calls {
        let row = small_row(&mut random);
        let other = small_row(&mut random);
        for _ in 0..4 {
            dealt += lie(&row, &other, &mut random, deck);
        }
    }
}

/// One command with one or both proofs lied about; answers how many calls.
fn lie(row: &Archive, other: &Archive, random: &mut Random, deck: &mut Deck) -> u32 {
    let operation = random.pick(&OPERATIONS);
    let p = random.from_to(u32::from(operation != Operation::Insert), row.n().max(1));
    let height = random.below(17) as u8;
    let command = command(operation, p, height, random.digest());
    let (mut first, mut second) = row.proofs(&command);
    match random.below(4) {
        0 => std::mem::swap(&mut first, &mut second),
        1 => second = lied_about(&second, row, other, random),
        2 => both_changed(&mut first, &mut second, random),
        _ => first = lied_about(&first, row, other, random),
    }
    let mut metadata = vec![row.metadata(), random_metadata(row, random)];
    if is_whole(&first) {
        metadata.push(RawProof::read(&first).metadata());
    }
    let dealt = metadata.len() as u32;
    for held in metadata {
        let (first, second) = (first.clone(), second.clone());
        let request = Request::Gateway {
            held,
            command,
            first,
            second,
        };
        deck.put("lies", request);
    }
    dealt
}

/// The row's metadata with count or label changed.
pub fn random_metadata(row: &Archive, random: &mut Random) -> Metadata {
    let mut held = row.metadata();
    match random.below(4) {
        0 => held.count += 1,
        1 => held.count = random.pick(&[0, 4095, 4096, 4097, u32::MAX]),
        2 => held.label[random.index(32)] ^= 1 << random.below(8),
        _ => held.label = [0; 32],
    }
    held
}

/// The same change in both proofs, so that they may still meet.
fn both_changed(first: &mut [u8], second: &mut [u8], random: &mut Random) {
    let shared = first.iter().zip(&*second).skip(HEADER);
    let shared = shared.take_while(|(one, two)| one == two).count() / ENTRY;
    if shared == 0 {
        return;
    }
    let at = HEADER + ENTRY * random.index(shared);
    let (byte, bit) = match random.one_in(3) {
        true => (at + 5, 1),
        false => (at + 6 + random.index(32), 1 << random.below(8)),
    };
    first[byte] ^= bit;
    second[byte] ^= bit;
}

/// A proof changed, cut, extended, spliced, or of something else.
pub fn lied_about(honest: &[u8], row: &Archive, other: &Archive, random: &mut Random) -> Vec<u8> {
    let mut proof = honest.to_vec();
    if !is_whole(&proof) {
        let length = random.index(400);
        return random.bytes(length);
    }
    match random.below(8) {
        0 => {
            let at = random.index(proof.len());
            proof[at] ^= 1 << random.below(8);
        }
        1 => proof.truncate(random.index(honest.len())),
        2 => {
            let more = random.pick(&[1, 37, 38, 39, 76]);
            proof.extend(random.bytes(more));
        }
        3 => proof = row.proof(random.below(row.n() + 1)),
        4 => proof = other.proof(random.below(other.n() + 1)),
        5 => proof = spliced(honest, &other.proof(random.below(other.n() + 1)), random),
        6 => proof = spliced(honest, &row.proof(random.below(row.n() + 1)), random),
        _ => {
            let all = changed_fields(&RawProof::read(honest));
            proof = all[random.index(all.len())].write();
        }
    }
    proof
}

/// The upper part of one proof and the lower part of another.
pub fn spliced(upper: &[u8], lower: &[u8], random: &mut Random) -> Vec<u8> {
    let (upper, lower) = (RawProof::read(upper), RawProof::read(lower));
    let from = random.index(upper.entries.len() + 1);
    let to = random.index(lower.entries.len() + 1);
    let entries = [&upper.entries[..from], &lower.entries[to..]].concat();
    let stop = lower.stop;
    RawProof { entries, stop }.write()
}
