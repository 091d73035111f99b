//! The calls on joint proofs (document 02, ask 3).

pub mod forged;
pub mod form;
pub mod honest;
pub mod lies;
pub mod order;
pub mod parts;
pub mod room;
pub mod spelled;

use super::archive::Archive;
use super::Deck;
use crate::frames::LONGEST_JOINT_BUFFER;
use crate::random::Random;

/// Prove with a few bytes to spare, and the honest check.
fn both(family: &'static str, row: &Archive, positions: &[u32], deck: &mut Deck) {
    let place = positions.len() as u32 % 4;
    let length = row.joint(positions).len() as u32 + 5;
    let length = length.min(LONGEST_JOINT_BUFFER);
    deck.put(family, row.prove_joint(positions, place, length));
    deck.put(family, row.check_joint(positions));
}

/// A random set of 1 to 32 positions of 1 to n.
fn random_set(random: &mut Random, n: u32) -> Vec<u32> {
    let most = match random.one_in(3) {
        true => n.min(32),
        false => n.min(5),
    };
    let m = random.from_to(1, most);
    set_of(random, n, m)
}

/// A random set of m positions of 1 to n.
fn set_of(random: &mut Random, n: u32, m: u32) -> Vec<u32> {
    let mut left: Vec<u32> = (1..=n).collect();
    let mut set: Vec<u32> = Vec::new();
    for _ in 0..m {
        let at = random.index(left.len());
        set.push(left.swap_remove(at));
    }
    set.sort_unstable();
    set
}

/// m positions of 1 to n at equal steps, the last of them n.
fn spread(n: u32, m: u32) -> Vec<u32> {
    (1..=m).map(|i| n * i / m).collect()
}
