//! Repeated tags (document 02, ask 4), on this program alone.

use second::answers::run_on;
use second::block;
use second::bytes::{hex, unhex};
use second::cases::archive::{column, command, five, flat, numbered, with_proof, Archive};
use second::cases::raw::{self, RawProof};
use second::cases::repeated::{row_of_three, three_tags};
use second::command::{Command, Operation, OPERATIONS};
use second::frames::framed;
use second::gateway::{self, Accepted};
use second::metadata::Metadata;
use second::on_a_deep_stack;
use second::refusal::{Refusal, Which};
use second::sha256::{digest, Digest};
use second::store;
use second::tree::Side;

const REPEATED: Refusal = Refusal::Repeated;

fn insert(p: u32, height: u8, tag: Digest) -> Command {
    command(Operation::Insert, p, height, tag)
}

/// Apply with room for a block more: the new count, or a refusal that leaves
/// every byte.
fn apply(row: &Archive, command: &Command) -> Result<u32, Refusal> {
    let before = row.image_and(33);
    let mut image = before.clone();
    let told = store::apply(&mut image, command);
    assert!(told.is_ok() || image == before);
    told
}

/// The honest call of the gateway.
fn check(row: &Archive, command: &Command) -> Result<Accepted, Refusal> {
    let (first, second) = row.proofs(command);
    gateway::check(&row.metadata(), command, &first, &second)
}

/// Store and gateway agree: this count, or this refusal.
fn both(row: &Archive, command: &Command, wanted: Result<u32, Refusal>) {
    let told = check(row, command).map(|accepted| accepted.metadata.count);
    assert_eq!((apply(row, command), told), (wanted, wanted));
}

/// A row of height 0 with these tags.
fn row_of(tags: &[Digest]) -> Archive {
    Archive::new(tags.iter().map(|tag| column(0, *tag)).collect())
}

/// The outstation sends a block, the acknowledgement is lost, and it sends the
/// same block again. The next night's block has another time, and so a tag of
/// its own.
#[test]
fn the_modem_repeats_itself() {
    let nights = [1_700_000_000, 1_700_086_400];
    let [first, next] = nights.map(|time| block::tag(time, b"idle").unwrap());
    let (row, filed) = (five(), insert(5, 3, first));
    both(&row, &filed, Ok(6));
    let row = row.edited(&filed);
    both(&row, &insert(6, 3, first), Err(REPEATED));
    both(&row, &insert(6, 0, first), Err(REPEATED));
    both(&row, &insert(6, 3, next), Ok(7));
    assert_eq!((REPEATED.number(), REPEATED.which()), (14, 0));
}

/// Insert after p, p at least 1, is refused if the new tag equals the tag at p,
/// at every height; the other letters of the five are not repeated there.
#[test]
fn every_position_of_the_five() {
    let letters = [b"A", b"B", b"C", b"D", b"E"].map(|letter| digest(letter));
    for p in 0..=5 {
        for (at, tag) in (1..).zip(letters) {
            for height in 0..=15 {
                let wanted = match at == p {
                    true => Err(REPEATED),
                    false => Ok(6),
                };
                both(&five(), &insert(p, height, tag), wanted);
            }
        }
    }
}

/// Position 0 reports 32 zero bytes, and yet a zero tag is no repeat there;
/// after a block with a zero tag it is one.
#[test]
fn never_at_the_head() {
    let zero = [0; 32];
    both(&row_of(&[]), &insert(0, 0, zero), Ok(1));
    both(&five(), &insert(0, 2, zero), Ok(6));
    let row = row_of(&[zero, digest(b"A"), zero]);
    for (p, wanted) in [
        (0, Ok(4)),
        (1, Err(REPEATED)),
        (2, Ok(4)),
        (3, Err(REPEATED)),
    ] {
        both(&row, &insert(p, 1, zero), wanted);
    }
}

/// Only the tag at p counts, all 32 bytes of it.
#[test]
fn one_bit_off() {
    for p in 1..=5 {
        for bit in 0..256 {
            let mut tag = five().tag(p);
            tag[bit / 8] ^= 1 << (bit % 8);
            both(&five(), &insert(p, 1, tag), Ok(6));
        }
    }
}

/// Replace and Delete that bring equal tags together are done; so is Insert
/// before an equal tag. After either of the equal ones a third is refused.
#[test]
fn equal_neighbours() {
    let (a, b) = (digest(b"A"), digest(b"B"));
    let twice = row_of(&[a, a]);
    let edits = [
        (row_of(&[a, b]), command(Operation::Replace, 2, 0, a)),
        (row_of(&[b, a]), command(Operation::Replace, 1, 0, a)),
        (row_of(&[a, b, a]), command(Operation::Delete, 2, 0, a)),
        (row_of(&[a]), insert(0, 0, a)),
    ];
    for (row, edit) in edits {
        both(&row, &edit, Ok(2));
        assert_eq!(row.edited(&edit).metadata(), twice.metadata());
    }
    both(&twice, &insert(0, 0, a), Ok(3));
    both(&twice, &insert(1, 0, a), Err(REPEATED));
    both(&twice, &insert(2, 0, a), Err(REPEATED));
    both(&twice, &command(Operation::Replace, 1, 0, a), Ok(2));
    both(&twice, &command(Operation::Read, 1, 0, a), Ok(2));
}

/// Demand 2's honest proofs are accepted except for this: the gateway works out
/// the metadata of the edited image, and both refuse exactly the repeats, of
/// which each of the 81 rows has one a block.
#[test]
fn demand_2_except_for_repeats() {
    let mut repeated = 0;
    for number in 0..81 {
        let row = row_of_three(4, number);
        let places = (0..=4).flat_map(|p| three_tags().map(|tag| (p, tag)));
        for (p, tag) in places {
            for operation in OPERATIONS {
                let command = command(operation, p, (number % 5) as u8, tag);
                if command.allowed(4).is_ok() {
                    repeated += honest(&row, &command);
                }
            }
        }
    }
    assert_eq!(repeated, 81 * 4);
}

/// Answers 1 where the command repeats, else 0.
fn honest(row: &Archive, command: &Command) -> u32 {
    let (told, applied) = (check(row, command), apply(row, command));
    let (p, tag) = (command.p, row.tag(command.p));
    if command.operation == Operation::Insert && p > 0 && command.tag == tag {
        assert_eq!((told, applied), (Err(REPEATED), Err(REPEATED)));
        return 1;
    }
    let metadata = row.edited(command).metadata();
    assert_eq!(told, Ok(Accepted { tag, metadata }));
    assert_eq!(applied, Ok(metadata.count));
    0
}

/// Apply: 1, 2, 3, 4, 14, 5. Each call is one that repeats.
#[test]
fn order_in_apply() {
    on_a_deep_stack(|| {
        let mut bad = five().image();
        bad[0] = 0;
        let full = flat(4096);
        let calls = [
            (&five(), bad, 6, 16, Refusal::BadImage),
            (&five(), five().image(), 6, 16, Refusal::BadPosition),
            (&five(), five().image(), 5, 16, Refusal::BadHeight),
            (&full, full.image(), 4096, 16, Refusal::BadHeight),
            (&full, full.image(), 4096, 15, Refusal::Full),
            (&five(), five().image(), 5, 15, REPEATED),
            (&five(), five().image_and(32), 5, 15, REPEATED),
            (&five(), five().image_and(33), 5, 15, REPEATED),
            (&five(), five().image(), 0, 15, Refusal::NoRoom),
        ];
        for (row, mut image, p, height, wanted) in calls {
            let before = image.clone();
            let told = store::apply(&mut image, &insert(p, height, row.tag(p)));
            assert_eq!(told, Err(wanted), "position {p}, height {height}");
            assert_eq!(image, before);
        }
    });
}

/// Gateway: 12, 2, 3, 4, 7, 8, 9, 14. The new tag is always the stop's.
#[test]
fn order_in_the_gateway() {
    let row = five();
    let count = |count| Metadata {
        count,
        ..row.metadata()
    };
    let first = Which::First;
    let honest = RawProof::read(&row.proof(3));
    let mut bad = honest.clone();
    bad.stop.own = 2;
    let mut other = honest.clone();
    other.stop.right_rank = 1;
    other.stop.right_label = [9; 32];
    let calls = [
        (4097, 6, 16, &bad, Refusal::BadMetadata),
        (5, 6, 16, &bad, Refusal::BadPosition),
        (4096, 3, 16, &bad, Refusal::BadHeight),
        (4096, 3, 15, &bad, Refusal::Full),
        (4095, 4, 15, &bad, Refusal::BadProof(first)),
        (4095, 4, 15, &honest, Refusal::WrongPosition(first)),
        (5, 4, 15, &honest, Refusal::WrongPosition(first)),
        (4095, 3, 15, &honest, Refusal::WrongLabel(first)),
        (5, 3, 15, &other, Refusal::WrongLabel(first)),
        (5, 3, 15, &honest, REPEATED),
    ];
    for (held, p, height, proof, wanted) in calls {
        let insert = insert(p, height, proof.stop.tag);
        let told = gateway::check(&count(held), &insert, &proof.write(), &[]);
        assert_eq!(told, Err(wanted), "count {held}, position {p}");
    }
}

/// Paths too long to be proved are 7 at the gateway; Apply asks for no path.
#[test]
fn long_paths() {
    let row = flat(201);
    both(&row, &insert(200, 1, row.tag(200)), Err(REPEATED));
    let last = insert(201, 1, row.tag(201));
    assert_eq!(check(&row, &last), Err(Refusal::BadProof(Which::First)));
    assert_eq!(apply(&row, &last), Err(REPEATED));
    let row = Archive::new(numbered((0..40).map(|i| (i * 11 % 6) as u8)));
    for p in 1..=40 {
        both(&row, &insert(p, 2, row.tag(p)), Err(REPEATED));
    }
}

/// Where no archive has the metadata, the tag at p is the one in the stop.
#[test]
fn forged_proofs() {
    let (tag, label) = (digest(b"tag"), digest(b"label"));
    let side = |rank| Side { rank, label };
    let entries = vec![raw::right(3, side(7)), raw::leaf(1, label)];
    let stop = raw::stop(1, tag, side(20));
    let proof = RawProof { entries, stop };
    let told = |tag| {
        let lent = proof.write();
        gateway::check(&proof.metadata(), &insert(9, 2, tag), &lent, &[])
    };
    assert_eq!(told(tag), Err(REPEATED));
    assert_eq!(told(label).unwrap().tag, tag);
    assert_eq!(told([0; 32]).unwrap().metadata.count, 30);
    let (entries, stop) = (Vec::new(), raw::stop(0, tag, side(20)));
    let head = RawProof { entries, stop };
    let held = head.metadata();
    let told = gateway::check(&held, &insert(0, 2, [0; 32]), &head.write(), &[]);
    assert_eq!(told.unwrap().metadata.count, 21);
}

/// A refused repeat is answered as every refused call: 14 and no proof, a zero
/// tag, the metadata given, count 0, and the lent bytes as they were.
#[test]
fn frames() {
    let row = five();
    let fields = [&unhex("020000000302")[..], &digest(b"C")].concat();
    let call = [&[8][..], &fields, &row.image_and(40)].concat();
    let rest = [&unhex("0e00")[..], &[0; 81], &row.image_and(40)].concat();
    assert_eq!(hex(&run_on(&framed(&call))), hex(&framed(&rest)));
    let held = [&unhex("00000005")[..], &row.metadata().label].concat();
    let call = [&[9][..], &held, &fields, &unhex("000000e5"), &row.proof(3)].concat();
    let rest = [&unhex("0e00")[..], &[0; 32], &held, &[0; 13]].concat();
    assert_eq!(hex(&run_on(&framed(&call))), hex(&framed(&rest)));
    let request = with_proof(row.metadata(), insert(3, 2, digest(b"C")), row.proof(3));
    assert_eq!(request.frame(), framed(&call));
}
