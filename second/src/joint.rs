//! Document 02, ask 3: the set of positions and the bytes of a joint proof.

use crate::bytes;
use crate::proof::{self, ENTRY, MOST_ENTRIES, STOP, STOPS};
use crate::refusal::Refusal;
use crate::wrong::{wrong, Wrong};

/// A joint proof has at most this many positions.
pub const MOST_POSITIONS: usize = 32;
/// Version and length of the rest in four bytes; the number follows in one.
pub const HEADER: usize = 5;

/// 13, then 2: the set looks at the positions alone; each is 1 to n.
pub fn allowed(positions: &[u32], n: u32) -> Result<(), Refusal> {
    let within = positions.iter().all(|p| (1..=n).contains(p));
    let verdicts = [
        (is_set(positions), Refusal::BadSet),
        (within, Refusal::BadPosition),
    ];
    let mut order = verdicts.iter();
    let refused = match wrong(Wrong::SetAfterPosition) {
        true => order.rfind(|(stands, _)| !stands),
        false => order.find(|(stands, _)| !stands),
    };
    refused.map_or(Ok(()), |(_, refusal)| Err(*refusal))
}

/// 1 to 32 positions, strictly rising.
fn is_set(positions: &[u32]) -> bool {
    let most = MOST_POSITIONS + usize::from(wrong(Wrong::OneTooMany));
    let rises = |pair: &[u32]| pair[0] < pair[1] || pair[0] == pair[1] && wrong(Wrong::EqualRises);
    (1..=most).contains(&positions.len()) && positions.windows(2).all(rises)
}

/// The records of a proof without its header, as they stand in its bytes.
#[derive(Clone, Debug, PartialEq, Eq)]
pub struct Path<'a> {
    pub entries: Vec<&'a [u8]>,
    pub stop: &'a [u8],
}

impl<'a> Path<'a> {
    /// The records of a single proof of whole entries.
    pub fn of(single: &'a [u8]) -> Path<'a> {
        let records = &single[proof::HEADER..];
        let (entries, stop) = records.split_at(records.len() - STOP);
        let entries = entries.chunks(ENTRY).collect();
        Path { entries, stop }
    }

    /// The records from entry `c` on.
    pub fn from(&self, c: usize) -> Vec<u8> {
        [&self.entries[c..].concat(), self.stop].concat()
    }

    /// The proof spelled out. The length of a path over 200 may not fit its
    /// field; such a proof is refused whatever it states.
    pub fn spelled_out(&self) -> Vec<u8> {
        let records = self.from(0);
        let length = (records.len() as u16).to_be_bytes();
        [&[1][..], &length, &records].concat()
    }

    /// How many leading entries both have, byte for byte. Stops do not count.
    pub fn shared(&self, other: &Path) -> usize {
        let both = self.entries.iter().zip(&other.entries);
        both.take_while(|(one, two)| one == two).count()
    }
}

/// The joint proof of these single proofs, with the largest shared numbers.
pub fn write(singles: &[Vec<u8>]) -> Vec<u8> {
    let paths: Vec<Path> = singles.iter().map(|single| Path::of(single)).collect();
    let mut body = vec![paths.len() as u8];
    body.extend(paths[0].from(0));
    for pair in paths.windows(2) {
        let largest = pair[0].shared(&pair[1]);
        let c = match wrong(Wrong::SharedOneLess) {
            true => largest.saturating_sub(1),
            false => largest,
        };
        body.extend((c as u16).to_be_bytes());
        body.extend(pair[1].from(c));
    }
    let length = (body.len() as u32).to_be_bytes();
    [&[1][..], &length, &body].concat()
}

/// The paths of a joint proof of `m` positions, or none where its form is bad:
/// version, length, number, a kind over 2, bytes short or over, or a shared
/// number that is not the largest.
pub fn read(lent: &[u8], m: usize) -> Option<Vec<Path<'_>>> {
    let (paths, left) = read_paths(read_header(lent, m)?, m);
    let over = !left.is_empty() && !wrong(Wrong::BytesOver);
    (paths.len() == m && !over).then_some(paths)
}

/// What follows version, length and number, if they are as they must be.
fn read_header(lent: &[u8], m: usize) -> Option<&[u8]> {
    let (number, records) = lent.get(HEADER..)?.split_first()?;
    let stated = bytes::number(&lent[1..HEADER]) as usize == lent.len() - HEADER;
    let numbered = usize::from(*number) == m || wrong(Wrong::NumberUnseen);
    (lent[0] == 1 && stated && numbered).then_some(records)
}

/// The paths before the first whose form is bad, up to `m`, and what is left.
pub fn read_paths(records: &[u8], m: usize) -> (Vec<Path<'_>>, &[u8]) {
    let mut left = records;
    let mut paths: Vec<Path> = Vec::new();
    while paths.len() < m {
        match next_path(paths.last(), &mut left) {
            Some(path) => paths.push(path),
            None => break,
        }
    }
    (paths, left)
}

/// The first path shares nothing; a later one has its shared number in two
/// bytes, and as many leading entries of the one before.
fn next_path<'a>(before: Option<&Path<'a>>, left: &mut &'a [u8]) -> Option<Path<'a>> {
    let before = match before {
        Some(before) => before,
        None => return next_records(&[], left),
    };
    let mut c = bytes::number(take(left, 2)?) as usize;
    if wrong(Wrong::SharedClamped) {
        c = c.min(before.entries.len());
    }
    let path = next_records(before.entries.get(..c)?, left)?;
    let largest = before.shared(&path) == c || wrong(Wrong::LargestUnseen);
    let long = path.entries.len() > MOST_ENTRIES && wrong(Wrong::LongIsForm);
    (largest && !long).then_some(path)
}

/// Records up to a stop, after these shared entries.
fn next_records<'a>(shared: &[&'a [u8]], left: &mut &'a [u8]) -> Option<Path<'a>> {
    let mut entries = shared.to_vec();
    loop {
        match *left.first()? {
            0 | 1 => entries.push(take(left, ENTRY)?),
            STOPS => break,
            _ if wrong(Wrong::KindUnseen) => entries.push(take(left, ENTRY)?),
            _ => return None,
        }
    }
    let stop = take(left, STOP)?;
    Some(Path { entries, stop })
}

/// Takes bytes off the front; none where they are short.
fn take<'a>(left: &mut &'a [u8], n: usize) -> Option<&'a [u8]> {
    let taken = left.get(..n)?;
    *left = &left[n..];
    Some(taken)
}
