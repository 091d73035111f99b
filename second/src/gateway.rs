//! The gateway: checks the proofs and works out the new metadata from them.

use crate::command::{Command, Operation};
use crate::joint;
use crate::metadata::{Metadata, MOST_BLOCKS};
use crate::proof::{self, Entry, Proof};
use crate::refusal::{Refusal, Which};
use crate::sha256::Digest;
use crate::tree::{self, Side};
use crate::wrong::{self, wrong, Wrong};

/// The tag at p before the edit and the metadata after it.
#[derive(Clone, Copy, Debug, PartialEq, Eq)]
pub struct Accepted {
    pub tag: Digest,
    pub metadata: Metadata,
}

/// Order: 12, 2, 3, 4, then 7, 8, 9 on the first proof, then 14; the same three
/// on the second, then 10. Only Insert is refused with 14, and only Delete looks
/// at the second proof.
pub fn check(
    held: &Metadata,
    command: &Command,
    first: &[u8],
    second: &[u8],
) -> Result<Accepted, Refusal> {
    if held.count > MOST_BLOCKS {
        return Err(Refusal::BadMetadata);
    }
    command.allowed(held.count)?;
    if command.operation == Operation::Delete {
        return check_delete(held, command.p, first, second);
    }
    let proof = examine(held, command.p, first, Which::First)?;
    let tag = proof.stop.tag;
    if wrong::sent_again(command, &proof, command.repeats(&tag)) {
        return Err(Refusal::Repeated);
    }
    let metadata = match command.operation {
        Operation::Replace => after(replace(&proof, &command.tag)),
        Operation::Insert => after(insert(&proof, command.height, &command.tag)),
        Operation::Read | Operation::Delete => *held,
    };
    Ok(Accepted { tag, metadata })
}

/// Delete p: the first proof is for p - 1, the second for p.
fn check_delete(held: &Metadata, p: u32, first: &[u8], second: &[u8]) -> Result<Accepted, Refusal> {
    let first = examine(held, p - 1, first, Which::First)?;
    let second = examine(held, p, second, Which::Second)?;
    let place = meeting(&first, &second).ok_or(Refusal::NotNeighbours)?;
    let tag = second.stop.tag;
    let metadata = after(delete(&first, &second, place));
    Ok(Accepted { tag, metadata })
}

/// The tags at the positions, in order; the metadata stays. Order: 12, 13, 2,
/// the form of the joint proof with place 0, then 7, 8, 9 by place.
pub fn check_joint(
    held: &Metadata,
    positions: &[u32],
    lent: &[u8],
) -> Result<Vec<Digest>, Refusal> {
    if held.count > MOST_BLOCKS {
        return Err(Refusal::BadMetadata);
    }
    joint::allowed(positions, held.count)?;
    let form = Refusal::BadProof(Which::Place(0));
    let paths = joint::read(lent, positions.len()).ok_or(form)?;
    let places = positions.iter().zip(&paths).zip(1..);
    let tags = places.map(|((p, path), place)| {
        let proof = examine(held, *p, &path.spelled_out(), Which::Place(place))?;
        Ok(proof.stop.tag)
    });
    tags.collect()
}

/// The metadata of a root.
fn after(root: Side) -> Metadata {
    let (count, label) = (root.rank, root.label);
    Metadata { count, label }
}

/// 7, 8 and 9 on one proof.
pub fn examine(held: &Metadata, wanted: u32, lent: &[u8], which: Which) -> Result<Proof, Refusal> {
    let proof = proof::read(lent).ok_or(Refusal::BadProof(which))?;
    let own = u32::from(wanted != 0);
    let own_stands = proof.stop.own == own || wrong(Wrong::OwnUnseen);
    if proof.position() != wanted || !own_stands {
        return Err(Refusal::WrongPosition(which));
    }
    let rank_stands = proof.rank() == held.count || wrong(Wrong::CountUnseen);
    let root = climb(&proof.entries, proof.stop.side());
    if !rank_stands || root.label != held.label {
        return Err(Refusal::WrongLabel(which));
    }
    Ok(proof)
}

/// Recomputes what stands above `below` along the entries, from the last up.
pub fn climb(entries: &[Entry], below: Side) -> Side {
    entries
        .iter()
        .rev()
        .fold(below, |below, entry| match entry {
            Entry::Down { level, right } => tree::node(*level, below, *right),
            Entry::Right { level, lower } => tree::node(*level, *lower, below),
            Entry::Leaf { own, tag } => tree::leaf(*own, tag, Some(below)),
        })
}

/// Replace puts the new tag in the stop.
fn replace(proof: &Proof, tag: &Digest) -> Side {
    let stop = tree::leaf(proof.stop.own, tag, proof.stop.right);
    climb(&proof.entries, stop)
}

/// Insert at height h keeps entries from the root while their level is above
/// h, or is h and they go right.
fn kept_by_insert(entry: &Entry, h: u8) -> bool {
    let right_at_h = entry.goes_right() && !wrong(Wrong::InsertLeavesRight);
    let down_at_h = !entry.goes_right() && wrong(Wrong::InsertKeepsDown);
    entry.level() > h || entry.level() == h && (right_at_h || down_at_h)
}

/// Below the kept entries, for h = 0, comes the stop's leaf and at its right
/// the new leaf; for h above 0, a node of level h.
fn insert(proof: &Proof, h: u8, tag: &Digest) -> Side {
    let stop = &proof.stop;
    let new = tree::leaf(1, tag, stop.right);
    let kept = proof.entries.iter().take_while(|e| kept_by_insert(e, h));
    let (kept, rest) = proof.entries.split_at(kept.count());
    if h == 0 {
        return climb(kept, tree::leaf(stop.own, &stop.tag, Some(new)));
    }
    let (rights, downs): (Vec<Entry>, Vec<Entry>) =
        rest.iter().partition(|entry| entry.goes_right());
    let lower = climb(&rights, tree::leaf(stop.own, &stop.tag, None));
    let right = climb(&downs, new);
    climb(kept, tree::node(h, lower, right))
}

/// Delete keeps the entries above the place where the paths part; below come
/// the first's later right entries and the second's later down entries.
fn delete(first: &Proof, second: &Proof, place: usize) -> Side {
    let rights = first.entries.iter().skip(place + 1);
    let downs = second.entries.iter().skip(place + 1);
    let below = by_falling_level(rights.copied().collect(), downs.copied().collect());
    let leaf = tree::leaf(first.stop.own, &first.stop.tag, second.stop.right);
    climb(&first.entries[..place], climb(&below, leaf))
}

/// By falling level, a right one first at equal level. The sort is stable.
fn by_falling_level(rights: Vec<Entry>, downs: Vec<Entry>) -> Vec<Entry> {
    let mut merged = match wrong(Wrong::DownFirst) {
        true => [downs, rights].concat(),
        false => [rights, downs].concat(),
    };
    merged.sort_by_key(|entry| std::cmp::Reverse(entry.level()));
    merged
}

/// "Meeting for Delete": the place where the paths part, if the proofs meet.
fn meeting(first: &Proof, second: &Proof) -> Option<usize> {
    let both = first.entries.iter().zip(&second.entries);
    let place = both.take_while(|(one, two)| one == two).count();
    let meets = match (first.entries.get(place), second.entries.get(place)) {
        (Some(Entry::Down { level: one, right }), Some(Entry::Right { level: two, lower })) => {
            one == two && node_meets(first, second, place, right, lower)
        }
        (None, Some(Entry::Leaf { own, tag })) => {
            let same = *own == first.stop.own && *tag == first.stop.tag;
            same && leaf_meets(first, second, place)
        }
        _ => false,
    };
    meets.then_some(place)
}

/// What a proof recomputes below the place.
fn below(proof: &Proof, place: usize) -> Side {
    let later = proof.entries.get(place + 1..).unwrap_or(&[]);
    climb(later, proof.stop.side())
}

/// Below the place the first has only right entries, the second only down.
fn only_right_only_down(first: &Proof, second: &Proof, place: usize) -> bool {
    let right = first.entries.iter().skip(place + 1).all(Entry::goes_right);
    let down = !second.entries.iter().skip(place + 1).any(Entry::goes_right);
    right && down || wrong(Wrong::AnythingBelow)
}

/// Each proof's side rank and label equal what the other recomputes.
fn node_meets(first: &Proof, second: &Proof, place: usize, right: &Side, lower: &Side) -> bool {
    let (one, two) = (below(first, place), below(second, place));
    let ranks = right.rank == two.rank && lower.rank == one.rank;
    let labels = right.label == two.label && lower.label == one.label;
    let ranks = ranks || wrong(Wrong::SideRanksUnseen);
    only_right_only_down(first, second, place) && ranks && labels
}

/// The first's side is its stop's right side; the second's is own and tag.
fn leaf_meets(first: &Proof, second: &Proof, place: usize) -> bool {
    let side = Some(below(second, place));
    only_right_only_down(first, second, place) && first.stop.right == side
}
