//! Document 01, "Digest and height", with the tag of document 02's ask 1.

use crate::refusal::Refusal;
use crate::sha256::{self, Digest};
use crate::wrong::{self, Wrong};

/// A digested message has at most this many bytes.
pub const LONGEST_MESSAGE: usize = 4096;

/// A block's readings have at most this many bytes (document 02, ask 1).
pub const LONGEST_READINGS: usize = 4089;

/// Version, length of the rest in two bytes, sample time in four.
pub const HEADER: usize = 7;

/// A height is at most this.
pub const GREATEST_HEIGHT: u8 = 15;

/// A block as it is sent: its sample time and its readings.
#[derive(Clone, Debug, Default, PartialEq, Eq)]
pub struct Block {
    pub time: u32,
    pub readings: Vec<u8>,
}

impl Block {
    /// Its tag; readings over 4,089 bytes are refused.
    pub fn tag(&self) -> Result<Digest, Refusal> {
        tag(self.time, &self.readings)
    }
}

/// The digest of a message; a long message is refused.
pub fn digest(message: &[u8]) -> Result<Digest, Refusal> {
    match message.len() <= LONGEST_MESSAGE {
        true => Ok(sha256::digest(message)),
        false => Err(Refusal::LongMessage),
    }
}

/// What a tag is the digest of (document 02, ask 1): version byte 1, length of
/// the rest in two bytes, sample time in four bytes (seconds), readings. Of a
/// length over two bytes, which no tag has, the last two are taken.
pub fn message(time: u32, readings: &[u8]) -> Vec<u8> {
    let rest = [&time.to_be_bytes()[..], readings].concat();
    let length = (rest.len() as u16).to_be_bytes();
    [&[1][..], &length, &rest].concat()
}

/// A block's tag; readings over 4,089 bytes are refused.
pub fn tag(time: u32, readings: &[u8]) -> Result<Digest, Refusal> {
    let longest = match wrong::wrong(Wrong::LongReadings) {
        true => LONGEST_MESSAGE,
        false => LONGEST_READINGS,
    };
    match readings.len() <= longest {
        true => Ok(sha256::digest(&wrong::message(message(time, readings)))),
        false => Err(Refusal::LongMessage),
    }
}

/// Yes exactly when the tag of the time and the readings is the one given.
pub fn matches(wanted: &Digest, time: u32, readings: &[u8]) -> Result<bool, Refusal> {
    Ok(tag(time, readings)? == *wanted)
}

/// The number of trailing zero bits of the coin word, at most 15.
pub fn height(coin: u16) -> u8 {
    let mut zeros = 0;
    while zeros < GREATEST_HEIGHT && coin >> zeros & 1 == 0 {
        zeros += 1;
    }
    zeros
}
