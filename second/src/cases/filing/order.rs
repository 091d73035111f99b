//! Several reasons to refuse a filing at once: which one is given.

use super::dated::{five_at, late, Dated};
use crate::cases::raw::RawProof;
use crate::cases::Deck;
use crate::frames::{File, Request};

const FAMILY: &str = "filing order";

/// A reason to refuse, put into an honest call of a row.
type Reason = fn(&Dated, &mut File);

/// Every reason, in an order in which one leaves those before it.
const REASONS: [Reason; 20] = [
    |row, call| call.new = row.block(call.p),
    |_, call| call.new.time = call.left.time.wrapping_sub(1),
    |_, call| call.new.time = call.right.time,
    |_, call| call.new.readings.resize(4090, 0),
    |_, call| call.left.readings.push(1),
    |_, call| call.left.readings.resize(4090, 0),
    |_, call| call.right.time ^= 1,
    |_, call| call.right.readings.resize(4090, 0),
    |_, call| call.first = other_label(&call.first),
    |row, call| call.first = row.archive().proof((call.p + 1) % (row.n() + 1)),
    |_, call| call.first = bad_own(&call.first),
    |_, call| call.second = other_label(&call.second),
    |row, call| call.second = row.archive().proof(call.p),
    |_, call| call.second = bad_own(&call.second),
    |_, call| call.held.label[0] ^= 1,
    |_, call| call.held.count = 4096,
    |_, call| call.held.count = 4097,
    |_, call| call.p = call.held.count + 1,
    |_, call| call.p = u32::MAX,
    |_, call| call.height = 16,
];

/// The same position, but another label at the stop's right.
fn other_label(proof: &[u8]) -> Vec<u8> {
    let mut proof = RawProof::read(proof);
    proof.stop.right_rank += 1;
    proof.stop.right_label = [9; 32];
    proof.write()
}

fn bad_own(proof: &[u8]) -> Vec<u8> {
    let mut proof = RawProof::read(proof);
    proof.stop.own = 2;
    proof.write()
}

pub fn deal(deck: &mut Deck) {
    let (up, down) = ([10, 20, 30, 40, 50], [50, 40, 30, 20, 10]);
    for (times, p, most) in [
        (up, 2, 3),
        (down, 2, 2),
        (up, 0, 2),
        (up, 5, 2),
        (down, 5, 2),
    ] {
        chosen(&five_at(&times), p, most, deck);
    }
    chosen(&five_at(&[10]), 0, 2, deck);
    chosen(&five_at(&[10]), 1, 2, deck);
    chosen(&five_at(&[]), 0, 2, deck);
    all_but_some(deck);
}

/// The call with the reasons that the bits of a number choose.
fn with_reasons(row: &Dated, p: u32, mask: u32) -> Request {
    let mut call = row.file(&row.archive(), p, 1, &late(p));
    for (at, reason) in REASONS.iter().enumerate() {
        if mask >> at & 1 == 1 {
            reason(row, &mut call);
        }
    }
    Request::File(call)
}

/// Every choice of up to so many reasons.
fn chosen(row: &Dated, p: u32, most: u32, deck: &mut Deck) {
    for mask in 0..1u32 << REASONS.len() {
        if mask.count_ones() <= most {
            deck.put(FAMILY, with_reasons(row, p, mask));
        }
    }
}

/// All reasons at once, and all but one or two of them.
fn all_but_some(deck: &mut Deck) {
    let row = five_at(&[10, 20, 30]);
    let all = (1u32 << REASONS.len()) - 1;
    for mask in 0..=all {
        if mask.count_ones() <= 2 {
            deck.put(FAMILY, with_reasons(&row, 2, all ^ mask));
        }
    }
}
