//! Document 01, "Paths and proof bytes".

use crate::bytes;
use crate::metadata::MOST_BLOCKS;
use crate::sha256::Digest;
use crate::tree::{self, Side};
use crate::wrong::{wrong, Wrong};

/// A path that is proved has at most this many entries.
pub const MOST_ENTRIES: usize = 200;
pub const ENTRY: usize = 38;
pub const STOP: usize = 74;
/// Version and length of the rest.
pub const HEADER: usize = 3;

const DOWN: u8 = 0;
const RIGHT: u8 = 1;
/// The kind of a stop record.
pub const STOPS: u8 = 2;

/// An entry of a path, read by its kind and level.
#[derive(Clone, Copy, Debug, PartialEq, Eq)]
pub enum Entry {
    /// Kind 0, level 1 to 15, with the right side.
    Down { level: u8, right: Side },
    /// Kind 1, level 1 to 15, with the lower side.
    Right { level: u8, lower: Side },
    /// Kind 1, level 0: the leaf passed.
    Leaf { own: u32, tag: Digest },
}

/// The leaf where the path ends; its right side may be empty.
#[derive(Clone, Copy, Debug, PartialEq, Eq)]
pub struct Stop {
    pub own: u32,
    pub tag: Digest,
    pub right: Option<Side>,
}

#[derive(Clone, Debug, PartialEq, Eq)]
pub struct Proof {
    pub entries: Vec<Entry>,
    pub stop: Stop,
}

impl Entry {
    pub fn level(&self) -> u8 {
        match self {
            Entry::Down { level, .. } | Entry::Right { level, .. } => *level,
            Entry::Leaf { .. } => 0,
        }
    }

    pub fn goes_right(&self) -> bool {
        !matches!(self, Entry::Down { .. })
    }

    /// The rank or own field.
    pub fn rank(&self) -> u32 {
        match self {
            Entry::Down { right, .. } => right.rank,
            Entry::Right { lower, .. } => lower.rank,
            Entry::Leaf { own, .. } => *own,
        }
    }

    fn write(&self, out: &mut Vec<u8>) {
        let (kind, field) = match self {
            Entry::Down { right, .. } => (DOWN, &right.label),
            Entry::Right { lower, .. } => (RIGHT, &lower.label),
            Entry::Leaf { tag, .. } => (RIGHT, tag),
        };
        out.extend([kind, self.level()]);
        out.extend(self.rank().to_be_bytes());
        out.extend(field);
    }
}

impl Stop {
    /// The stop's leaf with its right side.
    pub fn side(&self) -> Side {
        tree::leaf(self.own, &self.tag, self.right)
    }

    fn right_rank(&self) -> u32 {
        self.right.map_or(0, |side| side.rank)
    }

    fn write(&self, out: &mut Vec<u8>) {
        out.extend([STOPS, 0]);
        out.extend(self.own.to_be_bytes());
        out.extend(self.tag);
        out.extend(self.right_rank().to_be_bytes());
        out.extend(self.right.map_or([0; 32], |side| side.label));
    }
}

impl Proof {
    /// The rank or own fields of all right entries, plus the stop's own.
    pub fn position(&self) -> u32 {
        let right = self.entries.iter().filter(|entry| entry.goes_right());
        right.map(Entry::rank).sum::<u32>() + self.stop.own
    }

    /// All rank and own fields added.
    pub fn rank(&self) -> u32 {
        let entries = self.entries.iter().map(Entry::rank).sum::<u32>();
        entries + self.stop.own + self.stop.right_rank()
    }

    /// The bytes of a proof. The length of a path over 200 may not fit its field.
    pub fn write(&self) -> Vec<u8> {
        let rest = ENTRY * self.entries.len() + STOP;
        let mut out = vec![1];
        out.extend((rest as u16).to_be_bytes());
        for entry in &self.entries {
            entry.write(&mut out);
        }
        self.stop.write(&mut out);
        out
    }
}

/// The proof that the lent bytes hold, or none where they break a rule.
pub fn read(lent: &[u8]) -> Option<Proof> {
    let k = entries_in(lent.len())?;
    if lent[0] != 1 || bytes::number(&lent[1..HEADER]) as usize != lent.len() - HEADER {
        return None;
    }
    let (path, stop) = lent[HEADER..].split_at(ENTRY * k);
    let entries: Option<Vec<Entry>> = path.chunks(ENTRY).map(read_entry).collect();
    let entries = entries?;
    let stop = read_stop(stop)?;
    levels_fall(&entries).then_some(Proof { entries, stop })
}

/// The k from 0 to 200 for which 77 + 38k is the length.
fn entries_in(length: usize) -> Option<usize> {
    (0..=MOST_ENTRIES).find(|k| HEADER + ENTRY * k + STOP == length)
}

/// Every rank field is at most 4,096.
fn read_rank(field: &[u8]) -> Option<u32> {
    let rank = bytes::number(field);
    let wide = wrong(Wrong::WideRanks) && rank <= 65_535;
    (rank <= MOST_BLOCKS || wide).then_some(rank)
}

/// Own 0 or 1, and the tag field all zero if own is 0.
fn read_own(own: &[u8], tag: &[u8]) -> Option<(u32, Digest)> {
    let (own, tag) = (bytes::number(own), bytes::digest(tag));
    let stands = own == 1 || own == 0 && tag == [0; 32];
    stands.then_some((own, tag))
}

fn read_entry(entry: &[u8]) -> Option<Entry> {
    let (rank, field) = (&entry[2..6], &entry[6..]);
    let label = bytes::digest(field);
    match (entry[0], entry[1]) {
        (DOWN, level @ 1..=15) => {
            let rank = read_rank(rank)?;
            let right = Side { rank, label };
            (rank >= 1).then_some(Entry::Down { level, right })
        }
        (RIGHT, level @ 1..=15) => {
            let rank = read_rank(rank)?;
            let lower = Side { rank, label };
            Some(Entry::Right { level, lower })
        }
        (RIGHT, 0) => {
            let (own, tag) = read_own(rank, field)?;
            Some(Entry::Leaf { own, tag })
        }
        _ => None,
    }
}

/// Kind 2, level 0, own and tag, right rank and label; no label at rank 0.
fn read_stop(stop: &[u8]) -> Option<Stop> {
    if stop[0] != STOPS || stop[1] != 0 {
        return None;
    }
    let (own, tag) = read_own(&stop[2..6], &stop[6..38])?;
    let rank = read_rank(&stop[38..42])?;
    let label = bytes::digest(&stop[42..]);
    let right = (rank > 0).then_some(Side { rank, label });
    (rank > 0 || label == [0; 32]).then_some(Stop { own, tag, right })
}

/// After a down entry the next level is lower; after a right entry no higher.
/// The stop's level 0 keeps both rules after every entry.
fn levels_fall(entries: &[Entry]) -> bool {
    entries.windows(2).all(|pair| match pair[0].goes_right() {
        true => pair[1].level() <= pair[0].level(),
        false => pair[1].level() < pair[0].level(),
    })
}
