//! Blocks, and what a late one is filed with.

use crate::raw;
use crate::{tag, Command, Refusal, Tag};

/// A block: its sample time, in seconds, and its readings.
#[derive(Clone, Copy, Debug, Default, PartialEq, Eq, Hash)]
pub struct Block<'a> {
    pub time: u32,
    pub readings: &'a [u8],
}

/// A late block that is to be filed by its time, right after a place that the store proposes, with the blocks that stand on its two sides:
/// see [`Metadata::file`](crate::Metadata::file). A neighbour that is not needed is not looked at: `Block::default()` will do.
#[derive(Clone, Copy, Debug, PartialEq, Eq, Hash)]
pub struct Filing<'a> {
    /// p, 0 to n, as [`place`] finds it.
    pub position: u64,
    /// The new block's height, 0 to 15.
    pub height: u8,
    /// The new block.
    pub block: Block<'a>,
    /// The block at p, needed where p is at least 1.
    pub left: Block<'a>,
    /// The block at p + 1, needed where p is less than n.
    pub right: Block<'a>,
}

/// The place that the store proposes for a block of this time, from the times of its blocks in their order: how many stand before the first
/// that is later, all of them where none is. So a block goes after those of its own time. Times may rise or not, and nothing is refused.
///
/// ```
/// use quaythistle::place;
/// let times = [100, 200, 200, 300];
/// assert_eq!([99, 100, 200, 300].map(|time| place(&times, time)), [0, 1, 3, 4]);
/// assert_eq!(place(&[], 100), 0);
/// assert_eq!(place(&[300, 100, 200], 200), 0);
/// ```
pub fn place(times: &[u32], time: u32) -> u64 {
    // SAFETY: each pointer and length are those of a slice, and a slice that is written is lent alone.
    unsafe { raw::qt_times_place(times.as_ptr(), times.len(), time) }
}

impl Block<'_> {
    /// The block's tag, as [`tag`](fn@tag) makes it; readings over 4,089 bytes are refused with 11.
    ///
    /// ```
    /// use quaythistle::{tag, Block};
    /// let block = Block { time: 1_700_000_000, readings: b"readings" };
    /// assert_eq!(block.tag(), tag(1_700_000_000, b"readings"));
    /// ```
    pub fn tag(&self) -> Result<Tag, Refusal> {
        tag(self.time, self.readings)
    }
}

impl Filing<'_> {
    /// The Insert that a filing is: what the store applies after the gateway's acceptance. A new block of over 4,089 bytes is refused with 11.
    ///
    /// ```
    /// # fn main() -> Result<(), quaythistle::Refusal> {
    /// use quaythistle::{Block, Command, Filing};
    /// let block = Block { time: 1_700_000_000, readings: b"readings" };
    /// let (left, right) = (Block::default(), Block::default());
    /// let filing = Filing { position: 0, height: 3, block, left, right };
    /// assert_eq!(filing.insert()?, Command::Insert { position: 0, height: 3, tag: block.tag()? });
    /// # Ok(())
    /// # }
    /// ```
    pub fn insert(&self) -> Result<Command, Refusal> {
        Ok(Command::Insert {
            position: self.position,
            height: self.height,
            tag: self.block.tag()?,
        })
    }

    pub(crate) fn plain(&self) -> raw::Filing {
        raw::Filing {
            position: self.position,
            height: self.height.into(),
            time: self.block.time,
            left_time: self.left.time,
            right_time: self.right.time,
        }
    }
}
