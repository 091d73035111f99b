//! Digests of joined bytes, and tags of times and readings, up to their limits.

use quaythistle::{digest, digest_joined, matches, tag, Refusal};

const TIME: u32 = 1_700_000_000;

/// Byte i is i modulo 251.
fn pattern(length: usize) -> Vec<u8> {
    (0..length).map(|i| (i % 251) as u8).collect()
}

/// What a block's tag is the digest of.
fn message(time: u32, readings: &[u8]) -> Vec<u8> {
    let rest = 4 + readings.len() as u16;
    let front = [&[1][..], &rest.to_be_bytes(), &time.to_be_bytes()];
    [&front.concat(), readings].concat()
}

#[test]
fn joined_bytes_digest_as_one() {
    let (long, other) = (pattern(130), vec![0xA5; 200]);
    for first in (0..=130).map(|length| &long[..length]) {
        for second in (0..=200).map(|length| &other[..length]) {
            let one = [first, second].concat();
            assert_eq!(digest_joined(first, second), digest(&one));
        }
    }
}

#[test]
fn joined_bytes_have_the_limit_of_one() {
    let bytes = pattern(4097);
    for place in [0, 1, 7, 64, 4095, 4096] {
        let (first, second) = bytes.split_at(place);
        assert_eq!(digest_joined(first, second), Err(Refusal::LongMessage));
        let second = &bytes[place..4096];
        assert_eq!(digest_joined(first, second), digest(&bytes[..4096]));
    }
    assert_eq!(digest_joined(&bytes, b""), Err(Refusal::LongMessage));
}

#[test]
fn a_tag_is_of_its_time_and_readings() {
    for time in [0, 1, 256, TIME, u32::MAX] {
        for length in [0, 48, 49, 56, 57, 58, 251, 252, 4089] {
            let readings = pattern(length);
            let made = tag(time, &readings).unwrap();
            assert_eq!(digest(&message(time, &readings)), Ok(made));
            assert_eq!(matches(&made, time, &readings), Ok(true));
        }
    }
}

#[test]
fn a_tag_matches_nothing_else() {
    let made = tag(TIME, b"readings").unwrap();
    for bit in 0..32 {
        assert_eq!(matches(&made, TIME ^ (1 << bit), b"readings"), Ok(false));
    }
    assert_eq!(matches(&made, TIME, b"reading"), Ok(false));
    let alone = digest(b"readings").unwrap();
    assert_eq!(matches(&alone, TIME, b"readings"), Ok(false));
}

#[test]
fn long_readings_are_refused() {
    let readings = pattern(4090);
    assert_eq!(tag(TIME, &readings), Err(Refusal::LongMessage));
    let answer = matches(&[0; 32], TIME, &readings);
    assert_eq!(answer, Err(Refusal::LongMessage));
}
