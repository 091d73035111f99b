//! Document 01, "The list and its tree", as it stands there.

use crate::proof::{Entry, Proof, Stop};
use crate::sha256::{digest, Digest};
use crate::wrong::{wrong, Wrong};

/// A column of the row. The head has no tag; its height is never looked at.
#[derive(Clone, Copy, Debug, PartialEq, Eq)]
pub struct Column {
    pub height: u8,
    pub tag: Option<Digest>,
}

pub const HEAD: Column = Column {
    height: 0,
    tag: None,
};

/// What is seen of a tree from outside: its rank and its label.
#[derive(Clone, Copy, Debug, PartialEq, Eq)]
pub struct Side {
    pub rank: u32,
    pub label: Digest,
}

/// A tree with its ranks and labels.
pub struct Tree {
    pub side: Side,
    pub shape: Shape,
}

pub enum Shape {
    Leaf {
        tag: Option<Digest>,
        right: Option<Box<Tree>>,
    },
    Node {
        level: u8,
        lower: Box<Tree>,
        right: Box<Tree>,
    },
}

/// An empty right side, and the head's missing tag, is the ONE byte 0.
const MISSING: &[u8] = &[0];

/// Digest of four digests joined, of level, rank, third and right.
pub fn label(level: u8, rank: u32, third: &[u8], right: &[u8]) -> Digest {
    let four = [
        digest(&[level]),
        digest(&rank.to_be_bytes()),
        digest(third),
        digest(right),
    ];
    digest(&four.concat())
}

/// Rank and label of a leaf: own plus its right side's rank, third its tag.
pub fn leaf(own: u32, tag: &Digest, right: Option<Side>) -> Side {
    let rank = own + right.map_or(0, |side| side.rank);
    let third = match own {
        0 if wrong(Wrong::HeadZeros) => &[0; 32],
        0 => MISSING,
        _ => tag,
    };
    let right = match &right {
        None if wrong(Wrong::EmptyZeros) => &[0; 32],
        None => MISSING,
        Some(side) => &side.label[..],
    };
    let label = label(0, rank, third, right);
    Side { rank, label }
}

/// Rank and label of a node: the sum of its two sides, third its lower label.
pub fn node(level: u8, lower: Side, right: Side) -> Side {
    let rank = lower.rank + right.rank;
    let label = label(level, rank, &lower.label, &right.label);
    Side { rank, label }
}

/// Own and tag of a column; the tag is 32 zero bytes where there is none.
fn own_and_tag(tag: Option<Digest>) -> (u32, Digest) {
    (u32::from(tag.is_some()), tag.unwrap_or_default())
}

fn leaf_tree(tag: Option<Digest>, right: Option<Tree>) -> Tree {
    let (own, bytes) = own_and_tag(tag);
    let side = leaf(own, &bytes, right.as_ref().map(|tree| tree.side));
    let right = right.map(Box::new);
    let shape = Shape::Leaf { tag, right };
    Tree { side, shape }
}

fn node_tree(level: u8, lower: Tree, right: Tree) -> Tree {
    let side = node(level, lower.side, right.side);
    let (lower, right) = (Box::new(lower), Box::new(right));
    let shape = Shape::Node {
        level,
        lower,
        right,
    };
    Tree { side, shape }
}

/// Where the FIRST column of height `l` stands in the run.
fn first_of_height(run: &[Column], l: u8) -> usize {
    let is = |column: &Column| column.height == l;
    let found = match wrong(Wrong::LastTallest) {
        true => run.iter().rposition(is),
        false => run.iter().position(is),
    };
    found.expect("the greatest height stands in the run")
}

/// tree(c, R): column c followed by a run R of columns.
pub fn tree(c: &Column, run: &[Column]) -> Tree {
    match run.iter().map(|column| column.height).max() {
        None => leaf_tree(c.tag, None),
        Some(0) => leaf_tree(c.tag, Some(tree(&run[0], &run[1..]))),
        Some(l) => {
            let d = first_of_height(run, l);
            let lower = tree(c, &run[..d]);
            node_tree(l, lower, tree(&run[d], &run[d + 1..]))
        }
    }
}

/// The root is tree(head, all blocks).
pub fn root(blocks: &[Column]) -> Tree {
    tree(&HEAD, blocks)
}

/// Finds p, 0 to n, from the root: the entries on the way and the stop.
pub fn way(root: &Tree, p: u32) -> Proof {
    let mut entries = Vec::new();
    let stop = walk(root, p, &mut entries);
    Proof { entries, stop }
}

fn walk(at: &Tree, p: u32, entries: &mut Vec<Entry>) -> Stop {
    match &at.shape {
        Shape::Node {
            level,
            lower,
            right,
        } => {
            let level = *level;
            if p <= lower.side.rank {
                let right = right.side;
                entries.push(Entry::Down { level, right });
                walk(lower, p, entries)
            } else {
                let lower = lower.side;
                entries.push(Entry::Right { level, lower });
                walk(right, p - lower.rank, entries)
            }
        }
        Shape::Leaf { tag, right } => at_leaf(*tag, right.as_deref(), p, entries),
    }
}

/// At a leaf stop if p equals its own, else subtract own and go right.
fn at_leaf(tag: Option<Digest>, right: Option<&Tree>, p: u32, way: &mut Vec<Entry>) -> Stop {
    let (own, tag) = own_and_tag(tag);
    if p == own {
        let right = right.map(|tree| tree.side);
        return Stop { own, tag, right };
    }
    way.push(Entry::Leaf { own, tag });
    let right = right.expect("a position 0 to n is found before the row ends");
    walk(right, p - own, way)
}
