//! The tag of document 02's ask 1, with the sample time under it: known tags,
//! lengths and times at their edges, matches and near misses.

use super::known::{varied, PUBLISHED};
use super::Deck;
use crate::answers::{matched, tagged};
use crate::block::{message, LONGEST_READINGS};
use crate::bytes::{self, unhex};
use crate::frames::Request;
use crate::random::Random;
use crate::sha256::{digest, Digest};

const FAMILY: &str = "tags";

/// Tags worked out with Python's hashlib. Of the message: version, length and
/// time, then a text of readings and how often it is repeated; and its digest.
/// "level 2.41 m" stands for two idle nights at one tank.
pub const KNOWN: [(&str, &str, usize, &str); 12] = [
    (
        "01000400000000",
        "",
        1,
        "f27e053e2ec3b2768a5ab93c7882265a46530a2b079acbe5cd961a55312cc3b9",
    ),
    (
        "01000701020304",
        "abc",
        1,
        "fb9090a3fd1972b92ba7d53ecff3ae8bfc27b68b1101686ef236df2911346485",
    ),
    (
        "010007ffffffff",
        "abc",
        1,
        "607ea118d474fe5e43e423d00dbb28e4f82f8c63432774d1914f24c4383d840c",
    ),
    (
        "01003400000001",
        "\0",
        48,
        "f2267ea7b7028426c4461338d1acc3e8ed4386de3d4fb858ae625fa773378794",
    ),
    (
        "01003580000000",
        "\0",
        49,
        "eff2cf75bdca4645122dbee1a3240337373308a7625aa2ff7481b43b8ccff869",
    ),
    (
        "0100386553f100",
        "level 2.41 m\n",
        4,
        "179f17611c33db66707a2e4288dd889bc5fa690a09010fa0aa910fa63a2f04e4",
    ),
    (
        "01003865554280",
        "level 2.41 m\n",
        4,
        "2f89b5e7fa8c0cb92338b902322e8082c068c3ec18471ec8751c7c305f384b54",
    ),
    (
        "01003dfffefdfc",
        "A",
        57,
        "e3d9a8a2add6543bd4411d55f88d23273d1a95e0cebf89652f09766355dff753",
    ),
    (
        "0100ff01020304",
        "A",
        251,
        "c43c984eabaed60a09a388dd5a8b6326a4b2d89ee05b2ae3cfee15b337e98c1e",
    ),
    (
        "01010001020304",
        "A",
        252,
        "740de7c62ea34fa5f88bff0c69a46cf265cab5c0eec7259475dd0d75f8ce110e",
    ),
    (
        "010ffc00000000",
        "\0",
        4088,
        "2d39eb8fa33f5e24b5025292a10a60ba5e41c274b0f8fa4b910f2cf3f717cd6b",
    ),
    (
        "010ffd01020304",
        "A",
        4089,
        "078132df61b6ac60e3f26e227ad73a7c641eea7a37c520ee589894da098c1728",
    ),
];

const TIMES: [u32; 5] = [0, 1, 0x0102_0304, 1 << 31, u32::MAX];

/// Lengths around the readings' limit and the digest's, and far over; from
/// 65,532 on the length of the rest does not fit its two bytes.
const LONG: [usize; 16] = [
    4087, 4088, 4089, 4090, 4091, 4095, 4096, 4097, 4098, 5000, 65_531, 65_532, 65_535, 65_536,
    65_537, 199_000,
];

/// Lengths at which near misses are tried: fewer bytes than a time's, with the
/// header at the padding's edges, at a carry in the length, at the limit.
const NEAR: [usize; 14] = [0, 1, 3, 4, 5, 48, 49, 57, 113, 121, 251, 252, 4088, 4089];

pub fn deal(deck: &mut Deck) {
    known(deck);
    published(deck);
    lengths(deck);
    near_misses(deck);
}

/// Match of a block against a tag.
fn matching(tag: Digest, time: u32, readings: &[u8]) -> Request {
    let readings = readings.to_vec();
    Request::Match {
        tag,
        time,
        readings,
    }
}

fn known(deck: &mut Deck) {
    for (header, text, times, hex) in KNOWN {
        let time = bytes::number(&unhex(header)[3..]);
        let readings = text.repeat(times).into_bytes();
        let tag = bytes::digest(&unhex(hex));
        deck.put_stated(FAMILY, matching(tag, time, &readings), matched(true));
        deck.put_stated(FAMILY, Request::Tag { time, readings }, tagged(tag));
    }
}

/// Document 01's tag, the digest of the readings alone, matches at no time.
fn published(deck: &mut Deck) {
    for (text, times, hex) in PUBLISHED {
        let readings = text.repeat(times).into_bytes();
        let old = bytes::digest(&unhex(hex));
        for time in TIMES {
            deck.put_stated(FAMILY, matching(old, time, &readings), matched(false));
        }
    }
}

/// Every length to 260, past the end of four 64-byte blocks, and the long ones.
fn lengths(deck: &mut Deck) {
    for length in (0..=260).chain(LONG) {
        for time in TIMES {
            let readings = varied(length);
            let tag = digest(&message(time, &readings));
            let mut other = tag;
            other[length % 32] ^= 1 << (length % 8);
            for tag in [tag, other, [0; 32]] {
                deck.put(FAMILY, matching(tag, time, &readings));
            }
            deck.put(FAMILY, Request::Tag { time, readings });
        }
    }
}

fn near_misses(deck: &mut Deck) {
    for length in NEAR {
        for time in TIMES {
            for miss in misses(time, &varied(length)) {
                put_miss(deck, miss);
            }
        }
    }
}

/// The answer is no, where the readings are not too long.
fn put_miss(deck: &mut Deck, miss: Request) {
    match &miss {
        Request::Match { readings, .. } if readings.len() <= LONGEST_READINGS => {
            deck.put_stated(FAMILY, miss, matched(false));
        }
        _ => deck.put(FAMILY, miss),
    }
}

/// Blocks that are nearly this one against its tag, and this one against
/// digests of what is nearly its message.
fn misses(time: u32, readings: &[u8]) -> Vec<Request> {
    let tag = digest(&message(time, readings));
    let blocks = near_blocks(time, readings).into_iter();
    let blocks = blocks.map(|(time, readings)| matching(tag, time, &readings));
    let messages = near_messages(time, readings).into_iter();
    let messages = messages.map(|message| matching(digest(&message), time, readings));
    let hit = matching(tag, time, readings);
    let all = blocks.chain(messages);
    all.filter(|near| *near != hit).collect()
}

/// Another time, other readings, or bytes moved from one to the other.
pub fn near_blocks(time: u32, readings: &[u8]) -> Vec<(u32, Vec<u8>)> {
    let times = near_times(time).into_iter();
    let times = times.map(|time| (time, readings.to_vec()));
    let others = near_readings(readings).into_iter();
    let others = others.map(|readings| (time, readings));
    times.chain(others).chain(moved(time, readings)).collect()
}

/// One second before and after, every bit changed, the bytes in other orders.
fn near_times(time: u32) -> Vec<u32> {
    let steps = [time.wrapping_sub(1), time.wrapping_add(1)];
    let orders = [time.swap_bytes(), time.rotate_left(8)];
    let bits = (0..32).map(|bit| time ^ 1 << bit);
    bits.chain(steps).chain(orders).collect()
}

/// A byte more or less at either end, or a bit changed.
fn near_readings(readings: &[u8]) -> Vec<Vec<u8>> {
    let mut near = vec![
        [readings, &[0]].concat(),
        [readings, &[0x80]].concat(),
        [&[0], readings].concat(),
    ];
    if let Some(last) = readings.len().checked_sub(1) {
        near.extend([readings[1..].to_vec(), readings[..last].to_vec()]);
        for at in [0, last / 2, last] {
            let mut changed = readings.to_vec();
            changed[at] ^= 1 << (at % 8);
            near.push(changed);
        }
    }
    near
}

/// Time and readings as one run, cut up to four bytes too early, so that bytes
/// of the time move into the readings, or up to four too late.
fn moved(time: u32, readings: &[u8]) -> Vec<(u32, Vec<u8>)> {
    let run = [&[0; 4][..], &time.to_be_bytes(), readings].concat();
    let cuts = (4..=12).filter(|cut| *cut <= run.len());
    cuts.map(|cut| (bytes::number(&run[cut - 4..cut]), run[cut..].to_vec()))
        .collect()
}

/// Messages with parts left out, moved, or written in another way; the first is
/// that of document 01's tag.
fn near_messages(time: u32, readings: &[u8]) -> Vec<Vec<u8>> {
    let number = readings.len() as u16;
    let lengths = [0, 4, 6, 7].map(|more| (number + more).to_be_bytes());
    let [own, rest, after_version, whole] = &lengths;
    let little = &(number + 4).to_le_bytes();
    let wide = &(u32::from(number) + 4).to_be_bytes();
    let (reversed, time) = (&time.to_le_bytes(), &time.to_be_bytes());
    let messages: [&[&[u8]]; 17] = [
        &[readings],
        &[time, readings],
        &[rest, time, readings],
        &[&[1], time, readings],
        &[&[1], rest, time],
        &[&[1], rest, readings],
        &[&[1], own, readings],
        &[&[1], own, time, readings],
        &[&[1], after_version, time, readings],
        &[&[1], whole, time, readings],
        &[&[1], little, time, readings],
        &[&[1], wide, time, readings],
        &[&[1], rest, reversed, readings],
        &[&[1], rest, readings, time],
        &[&[1], time, rest, readings],
        &[&[0], rest, time, readings],
        &[&[2], rest, time, readings],
    ];
    messages.iter().map(|parts| parts.concat()).collect()
}

/// Random blocks: their tags, matches and near misses.
pub fn random(seed: u64, calls: u32, deck: &mut Deck) {
    let mut random = Random::part(seed, "tags");
    for _ in 0..calls {
        let (time, length) = (random.draw() as u32, random_length(&mut random));
        let readings = random.bytes(length);
        let tag = digest(&message(time, &readings));
        match random.below(4) {
            0 => deck.put(FAMILY, Request::Tag { time, readings }),
            1 => deck.put(FAMILY, matching(tag, time, &readings)),
            _ => {
                let mut misses = misses(time, &readings);
                let at = random.index(misses.len());
                put_miss(deck, misses.swap_remove(at));
            }
        }
    }
}

/// Mostly few readings, now and then many, or just about too many.
fn random_length(random: &mut Random) -> usize {
    match random.below(16) {
        0 => random.from_to(4080, 4098) as usize,
        1 => random.from_to(300, 4080) as usize,
        _ => random.index(300),
    }
}
