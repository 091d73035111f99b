//! Joint proofs (document 02, ask 3), on this program alone.

use second::answers::run_on;
use second::bytes::{hex, unhex};
use second::cases::archive::{command, five, flat, numbered, random_row, Archive, DRAWS};
use second::cases::joint::parts::{joined, largest, restated, Parts};
use second::cases::proofs::changed_fields;
use second::cases::raw::RawProof;
use second::cases::rows::short_row;
use second::command::Operation;
use second::frames::{framed, Request, LONGEST_JOINT_BUFFER};
use second::gateway;
use second::joint::{self, Path};
use second::metadata::Metadata;
use second::random::Random;
use second::refusal::{Refusal, Which};
use second::sha256::{digest, Digest};
use second::store;

/// A joint proof that the store writes at the start of its buffer.
fn prove(row: &Archive, positions: &[u32]) -> Result<Vec<u8>, Refusal> {
    let mut buffer = vec![0xA5; LONGEST_JOINT_BUFFER as usize];
    let length = store::prove_joint(&row.image(), positions, 0, &mut buffer)?;
    buffer.truncate(length as usize);
    Ok(buffer)
}

fn check(row: &Archive, positions: &[u32], joint: &[u8]) -> Result<Vec<Digest>, Refusal> {
    gateway::check_joint(&row.metadata(), positions, joint)
}

fn forty() -> Archive {
    Archive::new(numbered((0..40).map(|i| (i * 11 % 6) as u8)))
}

fn tags(row: &Archive, positions: &[u32]) -> Vec<Digest> {
    let tag = |p: &u32| row.blocks[*p as usize - 1].tag.unwrap();
    positions.iter().map(tag).collect()
}

/// Lengths and digests of joint proofs, worked out with Python's hashlib.
#[test]
fn known_joint_proofs() {
    let spread: Vec<u32> = (1..=32).map(|i| 40 * i / 32).collect();
    let known = [
        (
            five(),
            vec![1, 2, 3, 4, 5],
            688,
            "3a8ddd4e523ae49a71d7144d90efb3fa15ef885d57d87a4c17fead8b5ef46518",
        ),
        (
            five(),
            vec![3],
            232,
            "f55d8a861678eadce3f5860d70a5b80d55d7ae0fe0ab1bc0424d9a92121ed86b",
        ),
        (
            five(),
            vec![2, 5],
            308,
            "1c69671f18aab8e7671812e52e090674c6d5ba141dd248e818883b91d4c258e3",
        ),
        (
            forty(),
            spread,
            4944,
            "c6e9e3fb25fa1402f7af6571f83b09224f256e40e35c13a7b87bdc54ebe44582",
        ),
    ];
    for (row, positions, length, wanted) in known {
        let joint = prove(&row, &positions).unwrap();
        assert_eq!(
            (joint.len(), hex(&digest(&joint)).as_str()),
            (length, wanted)
        );
        assert_eq!(joint, row.joint(&positions));
        assert_eq!(check(&row, &positions, &joint), Ok(tags(&row, &positions)));
    }
}

/// Version, length, number, the first proof's records, then shared numbers and
/// what is not shared.
#[test]
fn the_five_as_one_joint_proof() {
    let row = five();
    let singles = row.singles(&[1, 2, 3, 4, 5]);
    assert_eq!(largest(&singles), [0, 0, 3, 2, 1]);
    let joint = prove(&row, &[2, 3]).unwrap();
    assert_eq!(hex(&joint[..6]), "010000012f02");
    let (second, third) = (&row.proof(2)[3..], &row.proof(3)[3..]);
    assert_eq!(&joint[6..194], second);
    assert_eq!(joint[194..196], [0, 3]);
    assert_eq!(&joint[196..], &third[3 * 38..]);
}

/// The proofs spelled out are the single ones, byte for byte.
#[test]
fn spelled_out_again() {
    let mut random = Random::new(3);
    for draw in DRAWS {
        let row = random_row(&mut random, 70, draw);
        let positions: Vec<u32> = (1..=32).map(|i| 2 * i).collect();
        let singles = row.singles(&positions);
        let joint = joint::write(&singles);
        let paths = joint::read(&joint, 32).expect("it is well formed");
        let spelled: Vec<Vec<u8>> = paths.iter().map(Path::spelled_out).collect();
        assert_eq!(spelled, singles);
    }
}

/// The store's joint proof of every set of every short row is accepted.
#[test]
fn every_set_of_short_rows() {
    for n in 1..=5 {
        for number in 0..3u32.pow(n) {
            let row = Archive::new(short_row(n, number, 3));
            for mask in 1..1u32 << n {
                let positions: Vec<u32> = (1..=n).filter(|p| mask >> (p - 1) & 1 == 1).collect();
                let joint = prove(&row, &positions).unwrap();
                assert_eq!(check(&row, &positions, &joint), Ok(tags(&row, &positions)));
            }
        }
    }
}

/// The first refusal of the proofs checked one by one, or their tags.
fn one_by_one(
    held: &Metadata,
    positions: &[u32],
    singles: &[Vec<u8>],
) -> Result<Vec<Digest>, Refusal> {
    let mut tags = Vec::new();
    for (at, (p, single)) in positions.iter().zip(singles).enumerate() {
        let read = command(Operation::Read, *p, 0, [0; 32]);
        let place = Which::Place(at as u8 + 1);
        let told = gateway::check(held, &read, single, &[]);
        tags.push(
            told.map(|accepted| accepted.tag)
                .map_err(|refusal| match refusal {
                    Refusal::BadProof(_) => Refusal::BadProof(place),
                    Refusal::WrongPosition(_) => Refusal::WrongPosition(place),
                    Refusal::WrongLabel(_) => Refusal::WrongLabel(place),
                    other => other,
                })?,
        );
    }
    Ok(tags)
}

/// Whether the kinds still say how long the records are.
fn is_well_formed(proof: &RawProof) -> bool {
    proof.stop.kind == 2 && proof.entries.iter().all(|entry| entry.kind < 2)
}

/// A well-formed joint proof is accepted exactly when every spelled-out proof
/// is; else the first refusal is told, with its place.
#[test]
fn as_one_by_one() {
    let (row, positions) = (five(), [1, 2, 3, 5]);
    let honest = row.singles(&positions);
    let held = row.metadata();
    for one in 0..4 {
        for two in 0..4 {
            let changed = changed_fields(&RawProof::read(&honest[one]));
            let other = changed_fields(&RawProof::read(&honest[two]));
            let well_formed = |proof: &&RawProof| is_well_formed(proof);
            let changed = changed.iter().filter(well_formed);
            for (number, proof) in changed.enumerate() {
                let mut singles = honest.clone();
                let also = &other[number * 7 % other.len()];
                if is_well_formed(also) {
                    singles[two] = also.write();
                }
                singles[one] = proof.write();
                let told = check(&row, &positions, &joined(&singles));
                assert_eq!(told, one_by_one(&held, &positions, &singles));
            }
        }
    }
}

const FORM: Result<Vec<Digest>, Refusal> = Err(Refusal::BadProof(Which::Place(0)));

/// Place 0: version, length, number, a kind over 2, bytes short or over.
#[test]
fn bad_form() {
    let (row, positions) = (five(), [2, 3]);
    let honest = row.joint(&positions);
    let accepted = check(&row, &positions, &honest);
    assert_eq!(accepted, Ok(tags(&row, &positions)));
    for (at, value) in [(0, 2), (1, 1), (4, 0), (5, 1), (5, 3), (6, 3), (82, 255)] {
        let mut joint = honest.clone();
        joint[at] = value;
        assert_eq!(check(&row, &positions, &joint), FORM, "byte {at}");
    }
    for length in 0..honest.len() {
        let cut = honest[..length].to_vec();
        assert_eq!(check(&row, &positions, &restated(cut)), FORM);
    }
    let over = restated([&honest[..], &[0]].concat());
    assert_eq!(check(&row, &positions, &over), FORM);
}

/// Place 0 too: the same spelled-out proofs with a shared number that is not
/// the largest, and a number above the entries before.
#[test]
fn shared_numbers() {
    let (row, positions) = (five(), [2, 3, 4]);
    let singles = row.singles(&positions);
    for shares in [[0, 0, 0], [0, 2, 2], [0, 3, 1], [0, 0, 2]] {
        let joint = Parts::sharing(&singles, &shares).write();
        assert_eq!(check(&row, &positions, &joint), FORM);
    }
    for shared in [4, 5, 200, 256, 65_535] {
        let mut parts = Parts::of(&singles);
        parts.parts[1].shared = shared;
        assert_eq!(check(&row, &positions, &parts.write()), FORM);
    }
    let mut fewer = Parts::of(&singles);
    fewer.parts[1].shared = 2;
    let told = check(&row, &positions, &fewer.write());
    assert_eq!(told, Err(Refusal::WrongLabel(Which::Place(2))));
}

/// More than 200 entries spelled out are 7 at their place, shared or not.
#[test]
fn long_paths() {
    let row = flat(300);
    let bad = |place| Err(Refusal::BadProof(Which::Place(place)));
    for (positions, wanted) in [
        (vec![199, 200], Ok(tags(&row, &[199, 200]))),
        (vec![200, 201], bad(2)),
        (vec![201, 202], bad(1)),
        (vec![1, 2, 290, 299], bad(3)),
        ((170..=201).collect(), bad(32)),
    ] {
        let joint = row.joint(&positions);
        assert_eq!(check(&row, &positions, &joint), wanted);
        let deep = positions.iter().any(|p| *p > 200);
        assert_eq!(prove(&row, &positions).is_err(), deep);
    }
}

/// Store: 1, 13, 2, 6, 5. A refusal leaves every byte of the buffer.
#[test]
fn order_in_the_store() {
    let deep = flat(300);
    let mut bad = deep.image();
    bad[0] = 0;
    let calls: [(Vec<u8>, Vec<u32>, u32, Refusal); 11] = [
        (bad, vec![], 9, Refusal::BadImage),
        (deep.image(), vec![], 9, Refusal::BadSet),
        (deep.image(), (0..=32).collect(), 9, Refusal::BadSet),
        (deep.image(), vec![301, 0], 9, Refusal::BadSet),
        (deep.image(), vec![0, 0], 9, Refusal::BadSet),
        (deep.image(), vec![0, 201], 9, Refusal::BadPosition),
        (deep.image(), vec![201, 301], 9, Refusal::BadPosition),
        (deep.image(), vec![1, 201], 9, Refusal::TooDeep),
        (deep.image(), vec![1], 9, Refusal::NoRoom),
        (deep.image(), vec![1], 0, Refusal::NoRoom),
        (deep.image(), vec![1], u32::MAX, Refusal::NoRoom),
    ];
    for (image, positions, place, wanted) in calls {
        let mut buffer = [0xA5; 100];
        let told = store::prove_joint(&image, &positions, place, &mut buffer);
        assert_eq!(told, Err(wanted), "{positions:?}");
        assert_eq!(buffer, [0xA5; 100]);
    }
}

/// The joint proof stands at its place; the bytes around it stay.
#[test]
fn bytes_around_a_joint_proof() {
    let row = five();
    let joint = row.joint(&[2, 5]);
    let mut buffer = vec![0xA5; joint.len() + 7];
    let told = store::prove_joint(&row.image(), &[2, 5], 4, &mut buffer);
    assert_eq!(told, Ok(308));
    let wanted = [&[0xA5; 4][..], &joint, &[0xA5; 3]].concat();
    assert_eq!(buffer, wanted);
    let told = store::prove_joint(&row.image(), &[2, 5], 8, &mut buffer);
    assert_eq!(told, Err(Refusal::NoRoom));
    assert_eq!(buffer, wanted);
}

/// Gateway: 12, 13, 2, then 7 with place 0, then by place.
#[test]
fn order_in_the_gateway() {
    let row = five();
    let honest = row.joint(&[2, 6]);
    let count = |count| Metadata {
        count,
        ..row.metadata()
    };
    let calls = [
        (count(4097), vec![3, 3], Refusal::BadMetadata),
        (count(5), vec![3, 3], Refusal::BadSet),
        (count(5), vec![6, 0], Refusal::BadSet),
        (count(5), vec![0, 6], Refusal::BadPosition),
        (count(5), vec![2, 6], Refusal::BadPosition),
        (count(6), vec![2, 6], Refusal::WrongLabel(Which::Place(1))),
        (
            count(6),
            vec![3, 6],
            Refusal::WrongPosition(Which::Place(1)),
        ),
        (count(6), vec![2], Refusal::BadProof(Which::Place(0))),
    ];
    for (held, positions, wanted) in calls {
        let told = gateway::check_joint(&held, &positions, &honest);
        assert_eq!(told, Err(wanted), "{positions:?}");
    }
}

/// Call 11: number, positions, place, buffer length, image. The answer has the
/// length and the buffer; k and everything else is zero.
#[test]
fn prove_joint_frames() {
    let row = five();
    let fields = unhex("0b0200000002000000050000000200000140");
    let joint = row.joint(&[2, 5]);
    let wanted = [
        &unhex("000001930000")[..],
        &[0; 68],
        &unhex("00000134"),
        &[0; 9],
        &[0xA5; 2],
        &joint,
        &[0xA5; 10],
    ]
    .concat();
    let frame = framed(&[fields, row.image()].concat());
    assert_eq!(hex(&run_on(&frame)), hex(&wanted));
}

/// Call 12: count, label, number, positions, joint proof. The metadata comes
/// back in every case; the tags where it is done, the place where it is not.
#[test]
fn check_joint_frames() {
    let row = five();
    let held = [&unhex("00000005")[..], &row.metadata().label].concat();
    for (sent, refusal, place) in [([2, 5], 0, 0), ([2, 4], 8, 2), ([1, 5], 8, 1)] {
        let set = unhex("020000000200000005");
        let call = [&[12][..], &held, &set, &row.joint(&sent)].concat();
        let lent = match refusal {
            0 => tags(&row, &sent).concat(),
            _ => Vec::new(),
        };
        let rest = [&[refusal, place][..], &[0; 32], &held, &[0; 13], &lent].concat();
        assert_eq!(hex(&run_on(&framed(&call))), hex(&framed(&rest)));
    }
}

/// Both calls are read back as they were written, also lists that are no set.
#[test]
fn frames_are_read_back() {
    let row = five();
    for positions in [vec![], vec![3], vec![0; 255], (1..=33).collect()] {
        let calls = [
            row.prove_joint(&positions, 3, LONGEST_JOINT_BUFFER),
            row.check_joint(&positions),
        ];
        for call in calls {
            assert_eq!(Request::read(&call.frame()[4..]), Some(call));
        }
    }
    let long = row.prove_joint(&[1], 0, LONGEST_JOINT_BUFFER + 1);
    assert_eq!(Request::read(&long.frame()[4..]), None);
    let short = unhex("0b0200000002000000050000000200");
    assert_eq!(Request::read(&short), None);
}
