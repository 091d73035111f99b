//! Joint proofs of no archive with the metadata that belongs to them: trees
//! whose sides are made up, and pairs of proofs that recompute one root.

use super::parts::{check, joined};
use super::set_of;
use crate::cases::forged::{random_path, random_side, Bounds, ANY};
use crate::cases::pairs::{pair, Kind, KINDS};
use crate::cases::raw::{self, climb, RawEntry, RawProof};
use crate::cases::Deck;
use crate::metadata::Metadata;
use crate::random::Random;
use crate::tree::Side;

const FAMILY: &str = "joint forged";

/// Up to so many leaves of a made-up tree are asked for.
const MOST: usize = 32;

/// The same for every seed: trees of every size, with every place spoiled, and
/// twenty pairs of each kind.
pub fn fixed(deck: &mut Deck) {
    let mut random = Random::part(1, "joint forged");
    for size in (1..=MOST).chain([36, 40, 60]) {
        forgery(&mut random, size, deck);
    }
    spoiled_everywhere(&mut random, deck);
    for _ in 0..20 {
        for kind in KINDS {
            pair_calls(kind, &mut random, deck);
        }
    }
}

pub fn random(seed: u64, calls: u32, deck: &mut Deck) {
    let mut random = Random::part(seed, "random joint forged");
    for _ in 0..calls / 8 {
        let size = random.from_to(1, 40) as usize;
        forgery(&mut random, size, deck);
        let kind = random.pick(&KINDS);
        pair_calls(kind, &mut random, deck);
    }
}

/// A made-up tree from outside, and the proofs of its leaves, in order.
struct Forged {
    side: Side,
    proofs: Vec<RawProof>,
}

impl Forged {
    /// A side of which nothing more is known. Its rank is at least 1, so that
    /// it can stand at the right of a node and of a stop.
    fn opaque(random: &mut Random) -> Forged {
        let mut side = random_side(random, 1);
        side.rank = side.rank.min(60);
        let proofs = Vec::new();
        Forged { side, proofs }
    }

    /// The same below an entry, that goes down or right.
    fn below(self, entry: RawEntry) -> Vec<RawProof> {
        let under = |mut proof: RawProof| {
            proof.entries.insert(0, entry);
            proof
        };
        self.proofs.into_iter().map(under).collect()
    }

    /// A node of two sides. The right one has a rank of at least 1.
    fn node(level: u8, lower: Forged, right: Forged) -> Forged {
        let down = raw::down(level, right.side);
        let goes_right = raw::right(level, lower.side);
        let side = down.above(lower.side);
        let proofs = [lower.below(down), right.below(goes_right)].concat();
        Forged { side, proofs }
    }

    /// A leaf with a right side, or none.
    fn leaf(random: &mut Random, own: u32, right: Option<Forged>) -> Forged {
        let (rank, label) = (0, [0; 32]);
        let seen = right.as_ref().map_or(Side { rank, label }, |f| f.side);
        let stop = raw::stop(own, random.digest(), seen);
        let passed = raw::leaf(own, stop.tag);
        let entries = Vec::new();
        let mut proofs = vec![RawProof { entries, stop }];
        proofs.extend(right.map_or(Vec::new(), |right| right.below(passed)));
        let side = stop.side();
        Forged { side, proofs }
    }

    /// The same with entries above it.
    fn under(mut self, above: &[RawEntry]) -> Forged {
        for proof in &mut self.proofs {
            proof.entries = [above, &proof.entries].concat();
        }
        let side = climb(above, self.side);
        Forged { side, ..self }
    }

    /// The proofs of leaves with this own. Where it is 1 they are those of
    /// rising positions; where it is 0, of positions that are not theirs.
    fn of_own(&self, own: u32) -> Vec<RawProof> {
        let proofs = self.proofs.iter().filter(|proof| proof.stop.own == own);
        proofs.cloned().collect()
    }

    fn metadata(&self) -> Metadata {
        let (count, label) = (self.side.rank, self.side.label);
        Metadata { count, label }
    }
}

/// A tree with levels up to `ceiling` and about `size` leaves to ask for.
fn made_up(random: &mut Random, ceiling: u8, size: usize) -> Forged {
    if size == 0 {
        return Forged::opaque(random);
    }
    if ceiling == 0 || size == 1 {
        return made_up_leaf(random, size);
    }
    let level = random.from_to(1, ceiling.into()) as u8;
    let left = random.index(size + 1);
    let lower = made_up(random, level - 1, left);
    let right = made_up(random, level, size - left);
    Forged::node(level, lower, right)
}

/// A leaf, now and then of own 0, and at its right another, nothing, or a side.
fn made_up_leaf(random: &mut Random, size: usize) -> Forged {
    let own = u32::from(!random.one_in(6));
    let left = size - (own as usize).min(size);
    let right = match (left, random.one_in(2)) {
        (0, true) => None,
        (0, false) => Some(Forged::opaque(random)),
        _ => Some(made_up_leaf(random, left)),
    };
    Forged::leaf(random, own, right)
}

/// A made-up tree, now and then below as many entries as there may be.
fn random_forged(random: &mut Random, size: usize) -> Forged {
    let forged = made_up(random, 14, size);
    let deepest = forged.proofs.iter().map(|proof| proof.entries.len()).max();
    let most = match random.below(12) {
        0 => 200usize.saturating_sub(deepest.unwrap_or(0)),
        _ => random.index(4),
    };
    let (zero, floor) = (random.one_in(2), 15);
    let bounds = Bounds {
        most,
        floor,
        zero,
        ..ANY
    };
    let above = random_path(random, bounds);
    forged.under(&above)
}

fn positions(proofs: &[RawProof]) -> Vec<u32> {
    proofs.iter().map(RawProof::position).collect()
}

fn written(proofs: &[RawProof]) -> Vec<u8> {
    let singles: Vec<Vec<u8>> = proofs.iter().map(RawProof::write).collect();
    joined(&singles)
}

/// Up to 32 of the proofs, in order.
fn some(random: &mut Random, proofs: &[RawProof]) -> Vec<RawProof> {
    let n = proofs.len() as u32;
    let m = random.from_to(1, n.min(MOST as u32));
    let chosen = set_of(random, n, m).into_iter();
    chosen.map(|at| proofs[at as usize - 1].clone()).collect()
}

/// A joint proof that no archive has, and one step away from it.
fn forgery(random: &mut Random, size: usize, deck: &mut Deck) {
    let forged = random_forged(random, size);
    let (held, asked) = (forged.metadata(), forged.of_own(1));
    if asked.is_empty() {
        return;
    }
    own_0(&forged, deck);
    let first = asked[..asked.len().min(MOST)].to_vec();
    for proofs in [first, some(random, &asked)] {
        deck.put(FAMILY, check(held, &positions(&proofs), written(&proofs)));
        nearly(random, held, &proofs, deck);
        let other = random_forged(random, size);
        deck.put(
            FAMILY,
            check(other.metadata(), &positions(&proofs), written(&proofs)),
        );
    }
}

/// Proofs of leaves of own 0, where the position adds up.
fn own_0(forged: &Forged, deck: &mut Deck) {
    let (held, asked) = (forged.metadata(), forged.of_own(1));
    for proof in forged.of_own(0) {
        let wanted = proof.position();
        let before = asked.iter().filter(|other| other.position() < wanted);
        let mut proofs: Vec<RawProof> = before.cloned().collect();
        proofs.drain(..proofs.len().saturating_sub(MOST - 1));
        proofs.push(proof);
        deck.put(FAMILY, check(held, &positions(&proofs), written(&proofs)));
    }
}

/// One thing off: a position, the count, the label, or one proof.
fn nearly(random: &mut Random, held: Metadata, proofs: &[RawProof], deck: &mut Deck) {
    let (mut held, mut proofs) = (held, proofs.to_vec());
    let mut wanted = positions(&proofs);
    let at = random.index(proofs.len());
    match random.below(7) {
        0 => wanted[at] += 1,
        1 => wanted[at] -= 1,
        2 => held.count += 1,
        3 => held.count -= 1,
        4 => held.label[random.index(32)] ^= 1 << random.below(8),
        5 => proofs[at].stop.tag[random.index(32)] ^= 1,
        _ => proofs[at] = proofs[random.index(proofs.len())].clone(),
    }
    deck.put(FAMILY, check(held, &wanted, written(&proofs)));
}

/// 32 proofs of a made-up tree: at each place another tag, another position,
/// the entries of the proof before under its own stop, and a rank too many.
fn spoiled_everywhere(random: &mut Random, deck: &mut Deck) {
    let mut forged = random_forged(random, 50);
    while forged.of_own(1).len() < MOST || forged.side.rank > 4096 {
        forged = random_forged(random, 50);
    }
    let (held, honest) = (forged.metadata(), &forged.of_own(1)[..MOST]);
    let wanted = positions(honest);
    for at in 0..MOST {
        let mut tag = honest.to_vec();
        tag[at].stop.tag[at] ^= 1;
        let mut before = honest.to_vec();
        before[at].entries = honest[at.max(1) - 1].entries.clone();
        let mut longer = honest.to_vec();
        longer[at].entries.push(raw::leaf(1, [7; 32]));
        let mut rank = honest.to_vec();
        rank[at].stop = raw::stop(1, [7; 32], random_side(random, 1));
        for proofs in [tag, before, longer, rank] {
            deck.put(FAMILY, check(held, &wanted, written(&proofs)));
        }
    }
}

/// Delete's pairs as joint proofs of p - 1 and p: where both are accepted one
/// by one they are accepted, whether or not they meet.
fn pair_calls(kind: Kind, random: &mut Random, deck: &mut Deck) {
    let (first, second) = pair(kind, random);
    let wanted = [first.position(), second.position()];
    let other = second.metadata();
    let both = [first.clone(), second.clone()];
    for held in [first.metadata(), other] {
        deck.put(FAMILY, check(held, &wanted, written(&both)));
    }
    let swapped = [second, first];
    deck.put(FAMILY, check(other, &wanted, written(&swapped)));
    deck.put(FAMILY, check(other, &wanted[1..], written(&swapped[..1])));
}
