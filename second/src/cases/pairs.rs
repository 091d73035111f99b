//! Delete with two well-formed proofs of no archive: some meet, some nearly do.
//! Both proofs of a pair recompute the same root, so that only the meeting is
//! in question, but for the kinds that say otherwise.

use super::forged::{random_path, random_side, Bounds, ANY};
use super::proofs::{one_proof, two_proofs};
use super::raw::{self, climb, RawEntry, RawProof};
use super::Deck;
use crate::command::Operation;
use crate::random::Random;
use crate::sha256::Digest;
use crate::tree::Side;

const FAMILY: &str = "forged pairs";

#[derive(Clone, Copy, Debug, PartialEq, Eq)]
pub enum Kind {
    /// They meet at a node.
    Node,
    /// They meet at the first's stop.
    Stop,
    /// The first's stop has a right side below the parting; the side ranks are off.
    FirstHasRightSide,
    /// The first has a down entry below; the side ranks are off.
    FirstGoesDown,
    /// The second has a right entry of rank 0 below; nothing else is off.
    SecondGoesRight,
    /// They part at the first's stop, but the second passes a leaf of own 0.
    SecondPassesLeaf,
    /// The first goes right and the second down.
    Crossed,
    /// They part at two levels, so that the second's root is another.
    TwoLevels,
    /// The labels above the parting differ in the second.
    OtherAbove,
}

pub const KINDS: [Kind; 9] = [
    Kind::Node,
    Kind::Stop,
    Kind::FirstHasRightSide,
    Kind::FirstGoesDown,
    Kind::SecondGoesRight,
    Kind::SecondPassesLeaf,
    Kind::Crossed,
    Kind::TwoLevels,
    Kind::OtherAbove,
];

/// Thirty of each kind, the same for every seed.
pub fn every_kind(deck: &mut Deck) {
    let mut random = Random::part(1, "pairs");
    for _ in 0..30 {
        for kind in KINDS {
            pair_calls(kind, &mut random, deck);
        }
    }
}

pub fn random(seed: u64, calls: u32, deck: &mut Deck) {
    let mut random = Random::part(seed, "random pairs");
    for _ in 0..calls / 4 {
        let kind = random.pick(&KINDS);
        pair_calls(kind, &mut random, deck);
    }
}

fn pair_calls(kind: Kind, random: &mut Random, deck: &mut Deck) {
    let (first, second) = pair(kind, random);
    let (held, p) = (first.metadata(), second.position());
    deck.put(FAMILY, two_proofs(p, held, first.write(), second.write()));
    let other = second.metadata();
    deck.put(FAMILY, two_proofs(p, other, first.write(), second.write()));
    deck.put(FAMILY, two_proofs(p, held, second.write(), first.write()));
    deck.put(
        FAMILY,
        one_proof(Operation::Insert, p, held, second.write()),
    );
}

/// A pair of proofs of p - 1 and p.
pub fn pair(kind: Kind, random: &mut Random) -> (RawProof, RawProof) {
    pair_of(kind, random, [None, None])
}

/// A pair of proofs of blocks with these tags, or with any.
pub fn pair_of(kind: Kind, random: &mut Random, tags: Tags) -> (RawProof, RawProof) {
    match kind {
        Kind::Stop | Kind::SecondPassesLeaf => stop_pair(kind, random, tags),
        Kind::Crossed => crossed_pair(random, tags),
        _ => node_pair(kind, random, tags),
    }
}

/// The tags at p - 1 and at p, where they are asked for.
type Tags = [Option<Digest>; 2];

/// The tag that is asked for. One is drawn in any case, so that all else is the
/// same.
fn this_or_any(tag: Option<Digest>, random: &mut Random) -> Digest {
    let any = random.digest();
    tag.unwrap_or(any)
}

/// How many entries there are above the parting, and below it.
fn random_lengths(random: &mut Random) -> (usize, usize) {
    match random.below(25) {
        0 => (189, 9),
        1 => (0, 199),
        _ => (random.index(5), random.index(5)),
    }
}

/// The parts of a pair that parts at a node.
struct Parts {
    above: Vec<RawEntry>,
    level: u8,
    first: RawProof,
    second: RawProof,
}

/// Random parts: the first's right entries and the second's down entries.
fn random_parts(kind: Kind, random: &mut Random, tags: Tags) -> Parts {
    let zero = random.one_in(4);
    let level = random.from_to(2, 15) as u8;
    let (most, below) = random_lengths(random);
    let floor = level;
    let above = random_path(
        random,
        Bounds {
            floor,
            most,
            zero,
            ..ANY
        },
    );
    let first = Bounds {
        ceiling: level - 1,
        most: below,
        zero,
        downs: false,
        ..ANY
    };
    let second = Bounds {
        ceiling: level,
        most: below,
        rights: false,
        ..ANY
    };
    let own = u32::from(!zero);
    let mut first = random_proof_of(random, first, own, tags[0]);
    let mut second = random_proof_of(random, second, 1, tags[1]);
    spoil(kind, random, &mut first, &mut second);
    Parts {
        above,
        level,
        first,
        second,
    }
}

/// A path and a stop, which has no right side where the path may not go down.
fn random_proof_of(random: &mut Random, bounds: Bounds, own: u32, tag: Option<Digest>) -> RawProof {
    let entries = random_path(random, bounds);
    let mut right = random_side(random, 0);
    if !bounds.downs {
        right.rank = 0;
    }
    let stop = raw::stop(own, this_or_any(tag, random), right);
    RawProof { entries, stop }
}

/// What must not be below the parting, by the kind.
fn spoil(kind: Kind, random: &mut Random, first: &mut RawProof, second: &mut RawProof) {
    let enough = random_side(random, 0).label;
    match kind {
        Kind::FirstHasRightSide => {
            let rank = random.from_to(1, 3);
            let label = random.digest();
            first.stop.right_rank = rank;
            first.stop.right_label = label;
            second.stop.right_rank = second.stop.right_rank.max(rank);
            second.stop.right_label = enough;
        }
        Kind::FirstGoesDown => {
            let rank = random.from_to(1, 3);
            let label = random.digest();
            first.entries.pop();
            let above_0 = first.entries.iter().take_while(|entry| entry.level > 0);
            let at = above_0.count();
            first.entries.insert(at, raw::down(1, Side { rank, label }));
            second.stop.right_rank = second.stop.right_rank.max(rank);
            second.stop.right_label = enough;
        }
        Kind::SecondGoesRight => spoil_with_right(random, second),
        _ => (),
    }
}

/// A right entry of rank 0, or a leaf of own 0, among the second's later ones.
fn spoil_with_right(random: &mut Random, second: &mut RawProof) {
    let last = second.entries.last().map_or(1, |entry| entry.level);
    if last == 1 || random.one_in(2) {
        return second.entries.push(raw::leaf(0, [0; 32]));
    }
    let (rank, label) = (0, random.digest());
    let level = random.from_to(1, u32::from(last) - 1) as u8;
    second.entries.push(raw::right(level, Side { rank, label }));
}

/// Joins the parts at a node. The ranks that the two entries state make the
/// proofs prove p - 1 and p and add up to one count, whatever is below.
fn node_pair(kind: Kind, random: &mut Random, tags: Tags) -> (RawProof, RawProof) {
    let parts = random_parts(kind, random, tags);
    let (mut first, mut second) = (parts.first, parts.second);
    let one = climb(&first.entries, first.stop.side());
    let two = climb(&second.entries, second.stop.side());
    let surplus = one.rank - first.position();
    let side = |of: Side| Side {
        rank: of.rank - surplus,
        label: of.label,
    };
    let level = match kind {
        Kind::TwoLevels => parts.level - 1,
        _ => parts.level,
    };
    let goes_down = raw::down(level, side(two));
    let goes_right = raw::right(parts.level, side(one));
    let mut above = parts.above;
    first.entries.insert(0, goes_down);
    second.entries.insert(0, goes_right);
    first.entries = [above.clone(), first.entries].concat();
    if let (Kind::OtherAbove, Some(entry)) = (kind, above.last_mut()) {
        entry.field[3] ^= 4;
    }
    second.entries = [above, second.entries].concat();
    (first, second)
}

/// The first stops, the second goes right from there.
fn stop_pair(kind: Kind, random: &mut Random, tags: Tags) -> (RawProof, RawProof) {
    let zero = random.one_in(4);
    let (most, _) = random_lengths(random);
    let above = random_path(random, Bounds { most, zero, ..ANY });
    let (own, tag) = (u32::from(!zero), this_or_any(tags[0], random));
    let right = random_side(random, 0);
    let mut later = Vec::new();
    if kind == Kind::SecondPassesLeaf {
        later = vec![raw::leaf(0, [0; 32]); random.from_to(1, 2) as usize];
    }
    let last = raw::stop(1, this_or_any(tags[1], random), right);
    let below = climb(&later, last.side());
    let stop = raw::stop(own, tag, below);
    let passed = vec![raw::leaf(own, stop.tag)];
    let entries = [above.clone(), passed, later].concat();
    let second = RawProof {
        entries,
        stop: last,
    };
    let entries = above;
    (RawProof { entries, stop }, second)
}

/// The first goes right and the second down, and yet the positions and the
/// count add up, by a lower side whose rank is stated too small.
fn crossed_pair(random: &mut Random, tags: Tags) -> (RawProof, RawProof) {
    let level = random.from_to(2, 15) as u8;
    let (most, _) = random_lengths(random);
    let floor = level;
    let above = random_path(random, Bounds { floor, most, ..ANY });
    let short = random.below(3);
    let label = random.digest();
    let deep = Side { rank: 40, label };
    let first_stop = raw::stop(1, this_or_any(tags[0], random), deep);
    let step = Side {
        rank: short + 1,
        label,
    };
    let later = vec![raw::right(1, step)];
    let second_stop = raw::stop(1, this_or_any(tags[1], random), Side { rank: 0, label });
    let (one, two) = (first_stop.side(), climb(&later, second_stop.side()));
    let goes_right = Side {
        rank: short,
        label: two.label,
    };
    let goes_down = Side {
        rank: short + one.rank - two.rank,
        label: one.label,
    };
    let first = [above.clone(), vec![raw::right(level, goes_right)]].concat();
    let second = [above, vec![raw::down(level, goes_down)], later].concat();
    (
        RawProof {
            entries: first,
            stop: first_stop,
        },
        RawProof {
            entries: second,
            stop: second_stop,
        },
    )
}
