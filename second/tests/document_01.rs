//! The cases that document 01 marks, and demand 2 on short rows, on this
//! program alone.

use second::block;
use second::bytes::{hex, unhex};
use second::cases::archive::{command, five, flat, numbered, Archive};
use second::cases::known::PUBLISHED;
use second::cases::pairs::{pair, Kind, KINDS};
use second::command::{Operation, OPERATIONS};
use second::gateway::{self, Accepted};
use second::metadata::{load, save, Metadata};
use second::on_a_deep_stack;
use second::proof::{self, Entry, Proof};
use second::random::Random;
use second::refusal::Refusal;
use second::sha256::digest;
use second::store::{self, Proved};
use second::tree::{self, Column, Shape};

fn proof_of(row: &Archive, p: u32) -> Proof {
    proof::read(&row.proof(p)).expect("an honest proof keeps the rules")
}

/// Kind, level and rank of every entry: "down 2 (1)".
fn path(row: &Archive, p: u32) -> Vec<String> {
    let entry = |entry: &Entry| {
        let kind = if entry.goes_right() { "right" } else { "down" };
        format!("{kind} {} ({})", entry.level(), entry.rank())
    };
    proof_of(row, p).entries.iter().map(entry).collect()
}

/// Level, rank, lower rank and right rank of the root.
fn root_of(row: &Archive) -> (u8, u32, u32, u32) {
    let root = tree::root(&row.blocks);
    match root.shape {
        Shape::Node {
            level,
            lower,
            right,
        } => (level, root.side.rank, lower.side.rank, right.side.rank),
        Shape::Leaf { .. } => panic!("the root is a leaf"),
    }
}

fn prove(row: &Archive, p: u32) -> Result<Proved, Refusal> {
    store::prove(&row.image(), p, 0, &mut [0; 8000])
}

#[test]
fn published_digests() {
    for (text, times, published) in PUBLISHED {
        let message = text.repeat(times).into_bytes();
        assert_eq!(hex(&digest(&message)), published);
    }
}

#[test]
fn p1_and_root_labels() {
    assert_eq!(root_of(&five()), (2, 5, 1, 4));
    let label = hex(&five().metadata().label);
    let empty = hex(&Archive::new(Vec::new()).metadata().label);
    assert_eq!(
        label,
        "58e3ab158035b449e489a22d72a95bf6550cbd259a688b36310ad6e485a06c23"
    );
    assert_eq!(
        empty,
        "85dd67783c67aa0ad02f06870ed745e0f8b7ae9eb94ab43c257bba9b2fd3390b"
    );
}

#[test]
fn p2_to_p4() {
    let entries: Vec<u32> = (1..=5).map(|p| prove(&five(), p).unwrap().k).collect();
    assert_eq!(entries, [2, 3, 4, 3, 2]);
    let third = ["right 2 (1)", "down 2 (1)", "down 1 (1)", "right 0 (1)"];
    assert_eq!(path(&five(), 3), third);
    assert_eq!(prove(&five(), 3).unwrap().length, 229);
}

#[test]
fn p5_and_p6() {
    let row = five().edited(&command(Operation::Insert, 3, 1, digest(b"X")));
    let fourth = ["right 2 (1)", "down 2 (1)", "right 1 (2)", "down 1 (1)"];
    assert_eq!(path(&row, 4), fourth);
    let e = prove(&row, 6).unwrap();
    assert_eq!((e.k, e.length), (2, 153));
}

#[test]
fn p7_and_p8() {
    let without_b = five().edited(&command(Operation::Delete, 2, 0, [0; 32]));
    let (_, _, lower, right) = root_of(&without_b);
    assert_eq!((lower, right), (3, 1));
    let without_a = five().edited(&command(Operation::Delete, 1, 0, [0; 32]));
    assert_eq!(root_of(&without_a).2, 0);
}

#[test]
fn p9_and_p10() {
    let (length, k) = (77, 0);
    let empty = Archive::new(Vec::new());
    assert_eq!(prove(&empty, 0), Ok(Proved { length, k }));
    let words = [1, 6, 8, 32_768, 0];
    assert_eq!(words.map(block::height), [0, 1, 3, 15, 15]);
}

#[test]
fn flat_rows_are_proved_to_200() {
    on_a_deep_stack(|| {
        for n in [201, 4096] {
            let row = flat(n);
            let (length, k) = (7677, 200);
            assert_eq!(prove(&row, 200), Ok(Proved { length, k }));
            assert_eq!(prove(&row, 201), Err(Refusal::TooDeep));
        }
    });
}

#[test]
fn full_archives() {
    on_a_deep_stack(|| {
        for (n, wanted) in [(4095, Ok(4096)), (4096, Err(Refusal::Full))] {
            let row = Archive::new(numbered((0..n).map(|i| (i % 16) as u8)));
            let insert = command(Operation::Insert, 17, 3, [1; 32]);
            let mut image = row.image_and(33);
            assert_eq!(store::apply(&mut image, &insert), wanted);
            let told = gateway::check(&row.metadata(), &insert, &row.proof(17), &[]);
            assert_eq!(told.map(|accepted| accepted.metadata.count), wanted);
        }
    });
}

#[test]
fn metadata_is_saved_and_loaded() {
    let held = five().metadata();
    let saved = save(&held).unwrap();
    assert_eq!(hex(&saved[..7]), "01002400000005");
    assert_eq!(load(&saved), Ok(held));
    let count = 4097;
    assert_eq!(save(&Metadata { count, ..held }), Err(Refusal::BadMetadata));
    assert_eq!(load(&saved[..38]), Err(Refusal::BadMetadata));
    assert_eq!(unhex("01002400"), &saved[..4]);
}

fn short_rows(longest: u32) -> Vec<Vec<Column>> {
    let mut rows = Vec::new();
    for n in 0..=longest {
        for number in 0..4u32.pow(n) {
            let digits = (0..n).map(|i| (number / 4u32.pow(i) % 4) as u8);
            rows.push(numbered(digits));
        }
    }
    rows
}

/// The gateway accepts the store's proofs, reports the tag at p, and works out
/// the count and label that the edited image has.
fn honest(row: &Archive, operation: Operation, p: u32, height: u8) {
    let command = command(operation, p, height, digest(b"new"));
    let (first, second) = row.proofs(&command);
    let told = gateway::check(&row.metadata(), &command, &first, &second);
    let mut image = row.image_and(33);
    let applied = store::apply(&mut image, &command);
    let least = u32::from(operation != Operation::Insert);
    if p < least || p > row.n() {
        assert_eq!(told, Err(Refusal::BadPosition));
        assert_eq!(applied, Err(Refusal::BadPosition));
        return;
    }
    let tag = match p {
        0 => [0; 32],
        _ => row.blocks[p as usize - 1].tag.unwrap(),
    };
    let metadata = store::check(&image).unwrap();
    assert_eq!(told, Ok(Accepted { tag, metadata }));
    assert_eq!(applied, Ok(metadata.count));
}

#[test]
fn demand_2_on_short_rows() {
    for blocks in short_rows(4) {
        let row = Archive::new(blocks);
        for p in 0..=row.n() + 1 {
            for operation in OPERATIONS {
                for height in 0..=4 {
                    honest(&row, operation, p, height);
                }
            }
        }
    }
}

/// Apply: what the image gave up is zero, and no other spare byte changes.
#[test]
fn delete_zeroes_what_was_given_up() {
    let before = five().image_and(50);
    let mut after = before.clone();
    let delete = command(Operation::Delete, 2, 0, [0; 32]);
    assert_eq!(store::apply(&mut after, &delete), Ok(4));
    assert_eq!(&after[7..40], &before[7..40]);
    assert_eq!(&after[40..139], &before[73..172]);
    assert_eq!(&after[139..172], &[0; 33]);
    assert_eq!(&after[172..], &before[172..]);
}

/// Pairs that recompute one root: those that meet are accepted, the others 10.
#[test]
fn forged_pairs_get_the_verdict_of_their_kind() {
    let mut random = Random::new(7);
    for kind in KINDS {
        let mut seen = 0;
        while seen < 200 {
            let (first, second) = pair(kind, &mut random);
            let held = first.metadata();
            if held.count <= 4096 {
                seen += 1;
                let delete = command(Operation::Delete, second.position(), 0, [0; 32]);
                let told = gateway::check(&held, &delete, &first.write(), &second.write());
                judge(kind, held.count, told);
            }
        }
    }
}

fn judge(kind: Kind, count: u32, told: Result<Accepted, Refusal>) {
    match kind {
        Kind::Node | Kind::Stop => {
            let metadata = told.expect("they meet").metadata;
            assert_eq!(metadata.count, count - 1);
        }
        Kind::TwoLevels | Kind::OtherAbove => (),
        _ => assert_eq!(told, Err(Refusal::NotNeighbours), "{kind:?}"),
    }
}
