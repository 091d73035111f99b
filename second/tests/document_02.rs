//! What document 02's asks change, on this program alone.

use second::answers::run_on;
use second::block;
use second::bytes::{self, hex, unhex};
use second::cases::archive::{column, command, Archive};
use second::cases::known::PUBLISHED;
use second::cases::tags::KNOWN;
use second::command::Operation;
use second::gateway;
use second::refusal::Refusal;
use second::sha256::Digest;

/// Ask 1: the tag is the digest of version, length, time and readings.
#[test]
fn known_tags() {
    for (header, text, times, known) in KNOWN {
        let (header, readings) = (unhex(header), text.repeat(times).into_bytes());
        let time = bytes::number(&header[3..]);
        let message = [header, readings.clone()].concat();
        assert_eq!(block::message(time, &readings), message);
        let tag = block::tag(time, &readings).unwrap();
        assert_eq!(hex(&tag), known);
        assert_eq!(block::matches(&tag, time, &readings), Ok(true));
    }
}

/// Ask 1: a digest of readings alone is no block's tag any more.
#[test]
fn old_tags_do_not_match() {
    for (text, times, published) in PUBLISHED {
        let readings = text.repeat(times).into_bytes();
        let old = bytes::digest(&unhex(published));
        for time in [0, 1, u32::MAX] {
            assert_eq!(block::matches(&old, time, &readings), Ok(false));
        }
    }
}

/// Ask 1: 11 is given for readings over 4,089 bytes; the digest keeps 4,096.
#[test]
fn long_readings() {
    for length in [4089, 4090, 4096, 4097, 65_532, 65_536] {
        let readings = vec![7; length];
        let over = |most| (length > most).then_some(Refusal::LongMessage);
        assert_eq!(block::tag(5, &readings).err(), over(4089));
        assert_eq!(block::matches(&[0; 32], 5, &readings).err(), over(4089));
        assert_eq!(block::digest(&readings).err(), over(4096));
    }
}

/// The tag that Read p reports in an archive of blocks with these tags.
fn read_tag(tags: &[Digest], p: u32) -> Digest {
    let row = Archive::new(tags.iter().map(|tag| column(0, *tag)).collect());
    let read = command(Operation::Read, p, 0, [0; 32]);
    let told = gateway::check(&row.metadata(), &read, &row.proof(p), &[]);
    told.expect("an honest proof is accepted").tag
}

/// Ask 1: two idle nights give equal readings, and one cannot be shown for the
/// other.
#[test]
fn idle_nights_are_told_apart() {
    let nights = [1_700_000_000, 1_700_086_400];
    let tags = nights.map(|time| block::tag(time, b"idle").unwrap());
    for (p, shown) in [(1, nights[0]), (2, nights[1])] {
        let tag = read_tag(&tags, p);
        for time in nights {
            let yes = block::matches(&tag, time, b"idle");
            assert_eq!(yes, Ok(time == shown));
        }
    }
}

/// Call 10 answers in the tag field; every other field is zero.
#[test]
fn tag_frames() {
    let (_, _, _, tag) = KNOWN[1];
    let wanted = ["00000053", "0000", tag, &"00".repeat(49)].concat();
    assert_eq!(hex(&run_on(&unhex("000000080a01020304616263"))), wanted);
    let long = [&unhex("00000fff0a01020304")[..], &[0; 4090]].concat();
    let refused = ["00000053", "0b", &"00".repeat(82)].concat();
    assert_eq!(hex(&run_on(&long)), refused);
}

/// Call 2 takes tag, time and readings, and answers in the last field.
#[test]
fn match_frames() {
    let (_, _, _, tag) = KNOWN[1];
    for (time, yes) in [("01020304", "01"), ("01020305", "00"), ("04030201", "00")] {
        let call = ["00000028", "02", tag, time, "616263"].concat();
        let wanted = ["00000053", &"00".repeat(82), yes].concat();
        assert_eq!(hex(&run_on(&unhex(&call))), wanted);
    }
}
