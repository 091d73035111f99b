//! Late blocks (document 02, ask 5), on this program alone.

use second::answers::run_on;
use second::block::{self, Block};
use second::bytes::{hex, unhex};
use second::cases::filing::dated::{block, five_at, rising, tag_of, Dated};
use second::cases::pairs::{pair_of, KINDS};
use second::cases::proofs::two_proofs;
use second::filer::{file, find_place};
use second::frames::{framed, File, FindPlace, Request};
use second::gateway::{self, Accepted};
use second::random::Random;
use second::refusal::{Refusal, Which};

const FIRST: Which = Which::First;
const SECOND: Which = Which::Second;

/// The honest filing after p.
fn honest(row: &Dated, p: u32, new: &Block) -> File {
    row.file(&row.archive(), p, 1, new)
}

fn told(row: &Dated, p: u32, new: &Block) -> Result<Accepted, Refusal> {
    file(&honest(row, p, new))
}

/// A block of this time that stands in no row.
fn late(time: u32) -> Block {
    block(time, b"late")
}

/// After an outage a block comes a day late. It is filed where its time lies,
/// and nowhere else; sent once more it finds the place after itself.
#[test]
fn a_late_block() {
    let row = rising();
    let new = late(35);
    assert_eq!(find_place(&row.times(), new.time), 3);
    for p in [0, 1, 2, 4, 5] {
        assert_eq!(told(&row, p, &new), Err(Refusal::OutOfTime), "place {p}");
    }
    assert_eq!(told(&row, 6, &new), Err(Refusal::BadPosition));
    let after = row.filed(3, 1, &new);
    let accepted = Accepted {
        tag: tag_of(&row.blocks[2]),
        metadata: after.archive().metadata(),
    };
    assert_eq!(told(&row, 3, &new), Ok(accepted));
    assert_eq!(after.times(), [10, 20, 30, 35, 40, 50]);
    assert_eq!(find_place(&after.times(), new.time), 4);
    assert_eq!(told(&after, 4, &new), Err(Refusal::Repeated));
}

/// The time at p is at or before the new one, which is before that at p + 1.
#[test]
fn equal_times() {
    let row = five_at(&[10, 10, 20, 20]);
    for (time, place) in [(9, 0), (10, 2), (11, 2), (19, 2), (20, 4), (21, 4)] {
        assert_eq!(find_place(&row.times(), time), place);
        for p in 0..=4 {
            let wanted = (p != place).then_some(Refusal::OutOfTime);
            assert_eq!(told(&row, p, &late(time)).err(), wanted, "{time} at {p}");
        }
    }
}

/// Every row of four times of three: a filing is accepted exactly where the
/// neighbours' times allow it; where the times never fell, they never fall
/// after, and the place found is such a place, the only one.
#[test]
fn times_never_fall() {
    let rises = |times: &[u32]| times.windows(2).all(|two| two[0] <= two[1]);
    for number in 0..81u32 {
        let times: Vec<u32> = (0..4).map(|i| 1 + 2 * (number / 3u32.pow(i) % 3)).collect();
        let row = five_at(&times);
        for new in 0..=6 {
            let places = (0..=4).filter(|p| told(&row, *p, &late(new)).is_ok());
            let places: Vec<u32> = places.collect();
            if rises(&times) {
                assert_eq!(places, [find_place(&times, new)]);
                assert!(rises(&row.filed(places[0], 1, &late(new)).times()));
            }
        }
    }
}

/// What is not needed is not looked at: the left block at the head, the right
/// block and the second proof at the end.
#[test]
fn missing_neighbours() {
    let long = block(77, &[0; 5000]);
    let row = rising();
    let mut head = honest(&row, 0, &late(9));
    let mut end = honest(&row, 5, &late(50));
    let mut alone = honest(&five_at(&[]), 0, &late(0));
    for call in [&mut head, &mut alone] {
        call.left = long.clone();
    }
    for call in [&mut end, &mut alone] {
        (call.right, call.second) = (long.clone(), vec![7; 300]);
    }
    for (call, count) in [(&head, 6), (&end, 6), (&alone, 1)] {
        assert_eq!(file(call).unwrap().metadata.count, count);
    }
    assert_eq!(file(&head).unwrap().tag, [0; 32]);
    assert_eq!(file(&end).unwrap().tag, tag_of(&row.blocks[4]));
    end.p = 6;
    assert_eq!(file(&end), Err(Refusal::BadPosition));
    end.left = long;
    assert_eq!(file(&end), Err(Refusal::LongMessage));
}

/// The proof with another label in its first entry.
fn other_label(proof: &[u8]) -> Vec<u8> {
    let mut proof = proof.to_vec();
    proof[10] ^= 1;
    proof
}

/// The call with every field wrong.
fn all_wrong(good: &File) -> File {
    let mut call = good.clone();
    let long = block(0, &[0; 4090]);
    (call.new, call.left, call.right) = (long.clone(), block(0, b"other"), long);
    (call.p, call.height, call.held.count) = (4098, 16, 4097);
    (call.first, call.second) = (Vec::new(), Vec::new());
    call
}

/// A refusal, and what puts it right.
type Step<'a> = (Refusal, &'a dyn Fn(&mut File));

/// Each reason to refuse, put right one after the other: 11, 12, 2, 3, 4, then
/// 7, 8, 9 and 14, then 7, 8, 9 on the second proof, 16, 15.
#[test]
fn order() {
    let row = five_at(&[30, 20, 10]);
    let (archive, good) = (row.archive(), honest(&row, 1, &row.blocks[0]));
    let mut call = all_wrong(&good);
    let steps: [Step; 15] = [
        (Refusal::LongMessage, &|call| call.new = good.new.clone()),
        (Refusal::BadMetadata, &|call| call.held.count = 4096),
        (Refusal::BadPosition, &|call| call.p = 3),
        (Refusal::LongMessage, &|call| {
            call.right = block(0, b"other")
        }),
        (Refusal::BadHeight, &|call| call.height = 15),
        (Refusal::Full, &|call| call.held.count = 3),
        (Refusal::BadProof(FIRST), &|call| {
            call.first = archive.proof(2)
        }),
        (Refusal::WrongPosition(FIRST), &|call| {
            (call.p, call.first) = (1, other_label(&good.first));
        }),
        (Refusal::WrongLabel(FIRST), &|call| {
            call.first = good.first.clone()
        }),
        (Refusal::Repeated, &|call| call.new.time = 15),
        (Refusal::BadProof(SECOND), &|call| {
            call.second = archive.proof(1)
        }),
        (Refusal::WrongPosition(SECOND), &|call| {
            call.second = other_label(&good.second);
        }),
        (Refusal::WrongLabel(SECOND), &|call| {
            call.second = good.second.clone()
        }),
        (Refusal::WrongBlock, &|call| call.left = good.left.clone()),
        (Refusal::WrongBlock, &|call| call.right = good.right.clone()),
    ];
    for (at, (wanted, put_right)) in steps.into_iter().enumerate() {
        assert_eq!(file(&call), Err(wanted), "step {at}");
        put_right(&mut call);
    }
    assert_eq!(file(&call), Err(Refusal::OutOfTime));
    let numbers = [Refusal::OutOfTime, Refusal::WrongBlock].map(|r| (r.number(), r.which()));
    assert_eq!(numbers, [(15, 0), (16, 0)]);
}

/// Blocks are matched with time and readings, each with the tag of its own
/// proof.
#[test]
fn wrong_blocks() {
    let row = five_at(&[10, 10, 20]);
    let good = honest(&row, 2, &late(15));
    assert!(file(&good).is_ok());
    let [a, b, c] = [0, 1, 2].map(|at| row.blocks[at].clone());
    let mut second_off = b.clone();
    second_off.time -= 1;
    let mut shorter = c.clone();
    shorter.readings.pop();
    for (left, right) in [
        (&a, &c),
        (&c, &b),
        (&second_off, &c),
        (&b, &shorter),
        (&b, &b),
    ] {
        let (left, right) = (left.clone(), right.clone());
        let call = File {
            left,
            right,
            ..good.clone()
        };
        assert_eq!(file(&call), Err(Refusal::WrongBlock));
    }
}

/// Two proofs that recompute the root held are enough, whether or not Delete
/// finds that they meet.
#[test]
fn forged_proofs() {
    let mut random = Random::new(5);
    let (mut filed, mut unmet) = (0, 0);
    let (left, right) = (block(10, b"left"), block(11, b"right"));
    for kind in KINDS.into_iter().cycle().take(900) {
        let (first, second) = pair_of(kind, &mut random, [&left, &right].map(|b| Some(tag_of(b))));
        let (held, p) = (first.metadata(), first.position());
        let (first, second) = (first.write(), second.write());
        let call = File {
            held,
            p,
            height: 3,
            new: late(10),
            left: left.clone(),
            right: right.clone(),
            first: first.clone(),
            second: second.clone(),
        };
        if file(&call).is_ok() {
            filed += 1;
            unmet += u32::from(deleted(&two_proofs(p + 1, held, first, second)));
        }
    }
    assert!(
        filed > 500 && unmet > 100,
        "{filed} filed, {unmet} do not meet"
    );
}

/// Whether Delete is refused with 10.
fn deleted(request: &Request) -> bool {
    match request {
        Request::Gateway {
            held,
            command,
            first,
            second,
        } => gateway::check(held, command, first, second) == Err(Refusal::NotNeighbours),
        _ => false,
    }
}

/// The place is before the first later time, also where the times fall.
#[test]
fn places() {
    let falling = [30, 20, 10];
    let rows: [(&[u32], u32, u32); 9] = [
        (&[], 7, 0),
        (&[7], 6, 0),
        (&[7], 7, 1),
        (&falling, 25, 0),
        (&falling, 30, 3),
        (&[10, 40, 20, 30], 25, 1),
        (&[u32::MAX; 3], u32::MAX, 3),
        (&[0; 3], 0, 3),
        (&[1 << 31, 1], i32::MAX as u32, 0),
    ];
    for (times, new, place) in rows {
        assert_eq!(find_place(times, new), place, "{new} in {times:?}");
    }
}

/// Call 13: metadata, place, height, three blocks, two proofs; the answer is
/// Insert's, a refusal the metadata given.
#[test]
fn file_frames() {
    let (row, new) = (five_at(&[10, 20]), late(15));
    let archive = row.archive();
    let held = [&unhex("00000002")[..], &archive.metadata().label].concat();
    let blocks = [
        "0000000f000000046c617465",
        "0000000a00000000",
        "00000014000000026c65",
    ];
    let blocks = blocks.map(unhex).concat();
    let (first, second) = (archive.proof(1), archive.proof(2));
    let length = (first.len() as u32).to_be_bytes();
    let fields = [&unhex("0000000103")[..], &blocks, &length, &first, &second].concat();
    let call = framed(&[&[13], &held[..], &fields].concat());
    assert_eq!(Request::File(row.file(&archive, 1, 3, &new)).frame(), call);
    let after = row.filed(1, 3, &new).archive().metadata();
    let tag = block::tag(10, b"").unwrap();
    let rest = [
        &[0, 0],
        &tag[..],
        &unhex("00000003"),
        &after.label,
        &[0; 13],
    ]
    .concat();
    assert_eq!(hex(&run_on(&call)), hex(&framed(&rest)));
    let mut early = call;
    early[4 + 1 + 36 + 5 + 3] = 9;
    let rest = [&unhex("0f00")[..], &[0; 32], &held, &[0; 13]].concat();
    assert_eq!(hex(&run_on(&early)), hex(&framed(&rest)));
}

/// Call 14: number of times, times, new time; the place is answered as a count.
#[test]
fn place_frames() {
    let call = "000000150e0000000300000005000000090000000200000005";
    let wanted = ["00000053", &"00".repeat(78), "00000001", "00"].concat();
    assert_eq!(hex(&run_on(&unhex(call))), wanted);
    let (times, new) = (vec![5, 9, 2], 5);
    let request = Request::FindPlace(FindPlace { times, new });
    assert_eq!(hex(&request.frame()), call);
    let longer = "000000170e00000003000000050000000900000002000000050808";
    assert_eq!(hex(&run_on(&unhex(longer))), wanted);
    let shorter = "000000140e00000003000000050000000900000002000000";
    assert_eq!(run_on(&unhex(shorter)), b"bad frame\n");
}
