//! Rows with their trees, and the honest calls on them.

use crate::block;
use crate::command::{Command, Operation};
use crate::frames::Request;
use crate::image;
use crate::metadata::Metadata;
use crate::random::Random;
use crate::sha256::{digest, Digest};
use crate::store;
use crate::tree::{self, Column, Tree};

/// A row and its tree.
pub struct Archive {
    pub blocks: Vec<Column>,
    root: Tree,
}

/// A column that owns a block.
pub fn column(height: u8, tag: Digest) -> Column {
    let tag = Some(tag);
    Column { height, tag }
}

/// Blocks with the digests of the letters "A", "B", and so on as tags.
pub fn lettered(heights: &[u8]) -> Vec<Column> {
    let letters = b"ABCDEFGHIJKLMNOPQRSTUVWXYZ".iter();
    let both = heights.iter().zip(letters);
    both.map(|(h, letter)| column(*h, digest(&[*letter])))
        .collect()
}

/// Blocks with tags made from their numbers.
pub fn numbered(heights: impl Iterator<Item = u8>) -> Vec<Column> {
    let tag = |i: usize| std::array::from_fn(|j| (i >> (8 * (j % 4))) as u8 ^ j as u8);
    let numbered = heights.enumerate();
    numbered.map(|(i, h)| column(h, tag(i + 1))).collect()
}

/// The row of five of document 01.
pub fn five() -> Archive {
    Archive::new(lettered(&[0, 2, 0, 1, 2]))
}

/// n blocks of height 0.
pub fn flat(n: usize) -> Archive {
    Archive::new(numbered(vec![0; n].into_iter()))
}

impl Archive {
    pub fn new(blocks: Vec<Column>) -> Archive {
        let root = tree::root(&blocks);
        Archive { blocks, root }
    }

    pub fn n(&self) -> u32 {
        self.blocks.len() as u32
    }

    pub fn image(&self) -> Vec<u8> {
        image::write(&self.blocks)
    }

    /// The image with spare bytes after it.
    pub fn image_and(&self, spare: usize) -> Vec<u8> {
        let mut image = self.image();
        image.extend((0..spare).map(|i| 0xC0 ^ i as u8));
        image
    }

    pub fn metadata(&self) -> Metadata {
        Metadata {
            count: self.root.side.rank,
            label: self.root.side.label,
        }
    }

    /// The honest proof of p, or of n where p is past it.
    pub fn proof(&self, p: u32) -> Vec<u8> {
        let mut proof = tree::way(&self.root, p.min(self.n()));
        proof.entries.truncate(1000);
        proof.write()
    }

    /// The tag at p, or at n where p is past it; 32 zero bytes at the head.
    pub fn tag(&self, p: u32) -> Digest {
        store::tag_at(&self.blocks, p.min(self.n()))
    }

    /// The command on this row, if it is in range.
    pub fn edited(&self, command: &Command) -> Archive {
        match command.allowed(self.n()) {
            Ok(()) => Archive::new(store::edit(&self.blocks, command)),
            Err(_) => Archive::new(self.blocks.clone()),
        }
    }

    /// The proofs that a command carries.
    pub fn proofs(&self, command: &Command) -> (Vec<u8>, Vec<u8>) {
        match command.operation {
            Operation::Delete => {
                let first = self.proof(command.p.saturating_sub(1));
                (first, self.proof(command.p))
            }
            _ => (self.proof(command.p), Vec::new()),
        }
    }

    /// The honest call of the gateway.
    pub fn gateway(&self, command: Command) -> Request {
        let (first, second) = self.proofs(&command);
        Request::Gateway {
            held: self.metadata(),
            command,
            first,
            second,
        }
    }

    pub fn check(&self) -> Request {
        let image = self.image();
        Request::Check { image }
    }

    pub fn prove(&self, p: u32, place: u32, length: u32) -> Request {
        let image = self.image();
        Request::Prove {
            p,
            place,
            length,
            image,
        }
    }

    /// Apply in a buffer with this many spare bytes.
    pub fn apply(&self, command: Command, spare: usize) -> Request {
        let image = self.image_and(spare);
        Request::Apply { command, image }
    }
}

/// A command with all its fields.
pub fn command(operation: Operation, p: u32, height: u8, tag: Digest) -> Command {
    Command {
        operation,
        p,
        height,
        tag,
    }
}

/// A command with one proof, whatever the proof is.
pub fn with_proof(held: Metadata, command: Command, first: Vec<u8>) -> Request {
    let second = Vec::new();
    Request::Gateway {
        held,
        command,
        first,
        second,
    }
}

/// How the heights of a random row are drawn.
#[derive(Clone, Copy, PartialEq, Eq)]
pub enum Draw {
    Coin,
    Flat,
    Same(u8),
    Any,
    Tall,
    Rising,
    Falling,
    MostlyFlat,
}

pub const DRAWS: [Draw; 10] = [
    Draw::Coin,
    Draw::Coin,
    Draw::Flat,
    Draw::Same(1),
    Draw::Same(15),
    Draw::Any,
    Draw::Tall,
    Draw::Rising,
    Draw::Falling,
    Draw::MostlyFlat,
];

fn draw_height(random: &mut Random, draw: Draw, i: usize) -> u8 {
    match draw {
        Draw::Coin => block::height(random.draw() as u16),
        Draw::Flat => 0,
        Draw::Same(height) => height,
        Draw::Any => random.below(16) as u8,
        Draw::Tall => random.from_to(13, 15) as u8,
        Draw::Rising => (i % 16) as u8,
        Draw::Falling => 15 - (i % 16) as u8,
        Draw::MostlyFlat => match random.one_in(20) {
            true => random.below(16) as u8,
            false => 0,
        },
    }
}

/// A random row of n blocks. Some tags are alike, some are zero.
pub fn random_row(random: &mut Random, n: usize, draw: Draw) -> Archive {
    let alike = random.digest();
    let block = |i: usize| {
        let tag = match random.below(16) {
            0 => alike,
            1 => [0; 32],
            _ => random.digest(),
        };
        column(draw_height(random, draw, i), tag)
    };
    Archive::new((0..n).map(block).collect())
}

/// A random row of up to 12 blocks.
pub fn small_row(random: &mut Random) -> Archive {
    let n = random.index(13);
    let draw = random.pick(&DRAWS);
    random_row(random, n, draw)
}
