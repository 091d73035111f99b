//! What comes back when a call will not.

use std::error::Error;
use std::fmt;

/// Which proof of a command or a filing. Delete and a filing carry two; the others one, their `First`. Of a joint proof the `Place`: 1 to 32
/// the proof spelled out for the first, second, .. of the positions, 0 the joint proof's own form.
#[derive(Clone, Copy, Debug, PartialEq, Eq, Hash)]
pub enum Which {
    First,
    Second,
    Place(u8),
}

/// Why a call will not, in the order of their numbers, 1 to 16. A refusal changes nothing that the call was lent.
#[derive(Clone, Copy, Debug, PartialEq, Eq, Hash)]
pub enum Refusal {
    /// 1: buffer under 7 bytes, version not 1, length not 2 + 33n, n over 4,096, buffer shorter than the image, or a height over 15.
    BadImage,
    /// 2: outside the command's range, for a joint proof outside 1 to n.
    BadPosition,
    /// 3: Insert with height over 15.
    BadHeight,
    /// 4: Insert with n = 4,096.
    Full,
    /// 5: proof, joint proof, grown image or numbers of entries do not fit their buffer.
    NoRoom,
    /// 6: path of more than 200 entries.
    TooDeep,
    /// 7: bytes break a rule of the proof's form, or are not exactly 77 + 38k for some k from 0 to 200 with that length stated. For place 0 of
    /// a joint proof: version not 1, length not stated, number not that of the positions asked, a kind over 2, bytes short or over, or a
    /// shared number not the largest.
    BadProof(Which),
    /// 8: proved position is not the one wanted, or stop's own is not 1 (0 for position 0).
    WrongPosition(Which),
    /// 9: proved rank is not the count, or recomputed root label is not the one held.
    WrongLabel(Which),
    /// 10: Delete's proofs do not meet.
    NotNeighbours,
    /// 11: over 4,096 bytes to digest; so for a block, readings over 4,089 bytes.
    LongMessage,
    /// 12: count over 4,096, or saved bytes not of the stated form.
    BadMetadata,
    /// 13: positions of a joint proof: none, over 32, or one not above the one before.
    BadSet,
    /// 14: Insert after p, p at least 1, of the tag at p: a block that comes again and is filed where it belongs, right after its first copy.
    /// No other tag is looked at: the same command sent again, word for word, names the place before the copy, which stands at p + 1 by
    /// then, and is not refused. Filed by its time, a block that comes again is placed anew, right after the copy, and is refused; unless
    /// another block of the same time has come in after the copy.
    Repeated,
    /// 15: a filing by time: the block at p is later than the new one, or the block at p + 1 is not.
    OutOfTime,
    /// 16: a filing by time: the block lent as that at p, or as that at p + 1, does not match the tag that the proof shows there.
    WrongBlock,
}

impl Refusal {
    /// The refusal's number.
    ///
    /// ```
    /// use quaythistle::{Refusal, Which};
    /// assert_eq!(Refusal::BadImage.number(), 1);
    /// assert_eq!(Refusal::BadProof(Which::Second).number(), 7);
    /// assert_eq!(Refusal::WrongBlock.number(), 16);
    /// ```
    pub fn number(self) -> u32 {
        match self {
            Refusal::BadImage => 1,
            Refusal::BadPosition => 2,
            Refusal::BadHeight => 3,
            Refusal::Full => 4,
            Refusal::NoRoom => 5,
            Refusal::TooDeep => 6,
            Refusal::BadProof(_) => 7,
            Refusal::WrongPosition(_) => 8,
            Refusal::WrongLabel(_) => 9,
            Refusal::NotNeighbours => 10,
            Refusal::LongMessage => 11,
            Refusal::BadMetadata => 12,
            Refusal::BadSet => 13,
            Refusal::Repeated => 14,
            Refusal::OutOfTime => 15,
            Refusal::WrongBlock => 16,
        }
    }

    /// The proof that 7, 8 and 9 speak of.
    ///
    /// ```
    /// use quaythistle::{Refusal, Which};
    /// assert_eq!(Refusal::WrongLabel(Which::Second).proof(), Some(Which::Second));
    /// assert_eq!(Refusal::WrongLabel(Which::Place(5)).proof(), Some(Which::Place(5)));
    /// assert_eq!(Refusal::NotNeighbours.proof(), None);
    /// ```
    pub fn proof(self) -> Option<Which> {
        match self {
            Refusal::BadProof(which)
            | Refusal::WrongPosition(which)
            | Refusal::WrongLabel(which) => Some(which),
            _ => None,
        }
    }

    /// The refusal's name.
    ///
    /// ```
    /// use quaythistle::{Refusal, Which};
    /// assert_eq!(Refusal::NoRoom.name(), "NO ROOM");
    /// assert_eq!(Refusal::BadProof(Which::First).name(), "BAD PROOF");
    /// ```
    pub fn name(self) -> &'static str {
        match self {
            Refusal::BadImage => "BAD IMAGE",
            Refusal::BadPosition => "BAD POSITION",
            Refusal::BadHeight => "BAD HEIGHT",
            Refusal::Full => "FULL",
            Refusal::NoRoom => "NO ROOM",
            Refusal::TooDeep => "TOO DEEP",
            Refusal::BadProof(_) => "BAD PROOF",
            Refusal::WrongPosition(_) => "WRONG POSITION",
            Refusal::WrongLabel(_) => "WRONG LABEL",
            Refusal::NotNeighbours => "NOT NEIGHBOURS",
            Refusal::LongMessage => "LONG MESSAGE",
            Refusal::BadMetadata => "BAD METADATA",
            Refusal::BadSet => "BAD SET",
            Refusal::Repeated => "REPEATED",
            Refusal::OutOfTime => "OUT OF TIME",
            Refusal::WrongBlock => "WRONG BLOCK",
        }
    }

    /// The refusal of a number and a proof, none for 0.
    pub(crate) fn numbered(number: u32, which: Which) -> Option<Refusal> {
        match number {
            0 => None,
            1 => Some(Refusal::BadImage),
            2 => Some(Refusal::BadPosition),
            3 => Some(Refusal::BadHeight),
            4 => Some(Refusal::Full),
            5 => Some(Refusal::NoRoom),
            6 => Some(Refusal::TooDeep),
            7 => Some(Refusal::BadProof(which)),
            8 => Some(Refusal::WrongPosition(which)),
            9 => Some(Refusal::WrongLabel(which)),
            10 => Some(Refusal::NotNeighbours),
            11 => Some(Refusal::LongMessage),
            12 => Some(Refusal::BadMetadata),
            13 => Some(Refusal::BadSet),
            14 => Some(Refusal::Repeated),
            15 => Some(Refusal::OutOfTime),
            16 => Some(Refusal::WrongBlock),
            _ => unreachable!("no call refuses with {number}"),
        }
    }
}

/// The refusal's name, and the proof that it speaks of.
///
/// ```
/// use quaythistle::{Refusal, Which};
/// assert_eq!(Refusal::BadImage.to_string(), "BAD IMAGE");
/// assert_eq!(Refusal::WrongLabel(Which::First).to_string(), "WRONG LABEL (first proof)");
/// assert_eq!(Refusal::WrongLabel(Which::Place(5)).to_string(), "WRONG LABEL (place 5)");
/// ```
impl fmt::Display for Refusal {
    fn fmt(&self, f: &mut fmt::Formatter<'_>) -> fmt::Result {
        f.write_str(self.name())?;
        match self.proof() {
            Some(Which::First) => f.write_str(" (first proof)"),
            Some(Which::Second) => f.write_str(" (second proof)"),
            Some(Which::Place(place)) => write!(f, " (place {place})"),
            None => Ok(()),
        }
    }
}

impl Error for Refusal {}
