//! Digests, tags and heights.

use crate::raw;
use crate::Refusal;

/// A SHA-256 digest.
pub type Digest = [u8; 32];

/// A block's tag, as [`tag`] makes it.
pub type Tag = Digest;

/// A label: the digest of four digests joined.
pub type Label = Digest;

/// SHA-256 of a message of at most 4,096 bytes; a longer one is refused with 11.
///
/// ```
/// assert_eq!(quaythistle::digest(b"abc").unwrap()[..4], [0xba, 0x78, 0x16, 0xbf]);
/// assert_eq!(quaythistle::digest(&[0; 4097]), Err(quaythistle::Refusal::LongMessage));
/// ```
pub fn digest(message: &[u8]) -> Result<Digest, Refusal> {
    // SAFETY: each pointer and length are those of a slice, and a slice that is written is lent alone.
    let answer = unsafe { raw::qt_sha256_digest(message.as_ptr(), message.len()) };
    answer.verdict.settled(answer.digest.bytes)
}

/// SHA-256 of two runs of bytes joined, as if the second stood right after the first; where together they are over 4,096 bytes they are
/// refused with 11.
///
/// ```
/// use quaythistle::{digest, digest_joined, Refusal};
/// assert_eq!(digest_joined(b"a", b"bc"), digest(b"abc"));
/// assert_eq!(digest_joined(&[0; 7], &[0; 4090]), Err(Refusal::LongMessage));
/// ```
pub fn digest_joined(first: &[u8], second: &[u8]) -> Result<Digest, Refusal> {
    // SAFETY: each pointer and length are those of a slice, and a slice that is written is lent alone.
    let answer = unsafe {
        raw::qt_sha256_digest_joined(first.as_ptr(), first.len(), second.as_ptr(), second.len())
    };
    answer.verdict.settled(answer.digest.bytes)
}

/// A block's tag: the digest of version byte 1, length of the rest (4 and the bytes of the readings) in two bytes, sample time in four bytes
/// (seconds), readings; both numbers are big-endian. Readings over 4,089 bytes are refused with 11.
///
/// ```
/// use quaythistle::{digest, tag, Refusal};
/// let message = b"\x01\x00\x0c\x65\x53\xf1\x00readings";
/// assert_eq!(tag(1_700_000_000, b"readings"), digest(message));
/// assert_eq!(tag(1_700_000_000, &[0; 4090]), Err(Refusal::LongMessage));
/// ```
pub fn tag(time: u32, readings: &[u8]) -> Result<Tag, Refusal> {
    // SAFETY: each pointer and length are those of a slice, and a slice that is written is lent alone.
    let answer = unsafe { raw::qt_labels_tag(time, readings.as_ptr(), readings.len()) };
    answer.verdict.settled(answer.digest.bytes)
}

/// Matches a block, its time and readings, against a tag: yes exactly when the block's tag is that tag. Readings over 4,089 bytes are
/// refused with 11.
///
/// ```
/// # fn main() -> Result<(), quaythistle::Refusal> {
/// use quaythistle::matches;
/// let tag = quaythistle::tag(1_700_000_000, b"readings")?;
/// assert!(matches(&tag, 1_700_000_000, b"readings")?);
/// assert!(!matches(&tag, 1_700_086_400, b"readings")?);
/// assert!(!matches(&tag, 1_700_000_000, b"other readings")?);
/// # Ok(())
/// # }
/// ```
pub fn matches(tag: &Tag, time: u32, readings: &[u8]) -> Result<bool, Refusal> {
    let tag = raw::Digest { bytes: *tag };
    // SAFETY: each pointer and length are those of a slice, and a slice that is written is lent alone.
    let answer = unsafe { raw::qt_labels_matches(tag, time, readings.as_ptr(), readings.len()) };
    answer.verdict.settled(answer.yes)
}

/// The height drawn from a 16-bit coin word: the number of its trailing zero bits, at most 15.
///
/// ```
/// let heights = [1, 6, 8, 32768, 0].map(quaythistle::height);
/// assert_eq!(heights, [0, 1, 3, 15, 15]);
/// ```
pub fn height(word: u16) -> u8 {
    // SAFETY: the call takes every word.
    unsafe { raw::qt_labels_height(word) }
}
