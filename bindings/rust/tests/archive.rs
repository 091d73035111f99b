//! The row of five, blocks A to E with heights 0, 2, 0, 1, 2, through every call, and every refusal that these types can meet.

use quaythistle::{digest, store, Command, Image, Metadata, Refusal, Tag, Which};

const EMPTY_LABEL: &str = "85dd67783c67aa0ad02f06870ed745e0f8b7ae9eb94ab43c257bba9b2fd3390b";
const FIVE_LABEL: &str = "58e3ab158035b449e489a22d72a95bf6550cbd259a688b36310ad6e485a06c23";
const LETTERS: [&[u8]; 5] = [b"A", b"B", b"C", b"D", b"E"];
const HEIGHTS: [u8; 5] = [0, 2, 0, 1, 2];

fn hex(bytes: &[u8]) -> String {
    bytes.iter().map(|byte| format!("{byte:02x}")).collect()
}

fn letter(position: u64) -> Tag {
    match position {
        0 => [0; 32],
        _ => digest(LETTERS[position as usize - 1]).unwrap(),
    }
}

/// A tag that names its position: no two of a row are the same.
fn numbered(position: u64) -> Tag {
    let mut tag = [0; 32];
    tag[..8].copy_from_slice(&position.to_be_bytes());
    tag
}

fn row(heights: &[u8]) -> Image {
    let mut image = Image::new();
    for (position, &height) in (0..).zip(heights) {
        let insert = Command::Insert {
            position,
            height,
            tag: numbered(position + 1),
        };
        image.apply(&insert).unwrap();
    }
    image
}

fn five() -> Image {
    let mut image = row(&HEIGHTS);
    for position in 1..=5 {
        let tag = letter(position);
        image.apply(&Command::Replace { position, tag }).unwrap();
    }
    image
}

/// The gateway accepts a command with the store's own proofs, reports the tag, and predicts the metadata after the store's edit.
fn accepted(command: Command, first: u64, second: u64) {
    let mut image = five();
    let first = image.prove(first).unwrap();
    let reported = letter(second);
    let second = image.prove(second).unwrap();
    let answer = image
        .metadata()
        .check(&command, first.as_bytes(), second.as_bytes())
        .unwrap();
    image.apply(&command).unwrap();
    assert_eq!((answer.tag, answer.metadata), (reported, image.metadata()));
}

#[test]
fn labels() {
    assert_eq!(hex(&Image::new().metadata().label), EMPTY_LABEL);
    assert_eq!(hex(&five().metadata().label), FIVE_LABEL);
    assert_eq!(five().metadata().count, 5);
}

#[test]
fn shape() {
    assert_eq!(five().shape(), [2, 3, 4, 3, 2]);
    assert_eq!(row(&[0; 300]).shape()[299], 300);
}

#[test]
fn images() {
    let image = five();
    let mut bytes = image.as_bytes().to_vec();
    assert_eq!(bytes.len(), 7 + 33 * 5);
    bytes.extend([9; 40]);
    assert_eq!(Image::from_bytes(bytes.clone()), Ok(image));
    bytes[7] = 16;
    assert_eq!(Image::from_bytes(bytes), Err(Refusal::BadImage));
    assert_eq!(Image::default(), Image::new());
}

#[test]
fn proofs() {
    let entries = [1, 2, 3, 4, 3, 2];
    for (position, k) in (0..).zip(entries) {
        let proof = five().prove(position).unwrap();
        assert_eq!((proof.entries(), proof.as_bytes().len()), (k, 77 + 38 * k));
    }
    assert_eq!(five().prove(6), Err(Refusal::BadPosition));
    let flat = row(&[0; 201]);
    assert_eq!(flat.prove(200).unwrap().entries(), 200);
    assert_eq!(flat.prove(201), Err(Refusal::TooDeep));
}

#[test]
fn commands() {
    let tag = digest(b"X").unwrap();
    for position in 1..=5 {
        accepted(Command::Read { position }, position, position);
        accepted(Command::Replace { position, tag }, position, position);
        accepted(Command::Delete { position }, position - 1, position);
    }
    for position in 0..=5 {
        for height in 0..=15 {
            let insert = Command::Insert {
                position,
                height,
                tag,
            };
            accepted(insert, position, position);
        }
    }
}

#[test]
fn a_refused_edit_changes_nothing() {
    let mut image = five();
    let before = image.clone();
    let insert = |position, height| Command::Insert {
        position,
        height,
        tag: [0; 32],
    };
    assert_eq!(image.apply(&insert(6, 16)), Err(Refusal::BadPosition));
    assert_eq!(image.apply(&insert(0, 16)), Err(Refusal::BadHeight));
    let delete = Command::Delete { position: 0 };
    assert_eq!(image.apply(&delete), Err(Refusal::BadPosition));
    assert_eq!(image, before);
    let mut full = row(&[0; 4096]);
    assert_eq!(full.apply(&insert(0, 0)), Err(Refusal::Full));
    assert_eq!(full.count(), 4096);
}

fn insert(position: u64, tag: Tag) -> Command {
    Command::Insert {
        position,
        height: 1,
        tag,
    }
}

/// Files a block after a position: the gateway checks, the store applies; what the gateway holds afterwards. Both refuse alike.
fn filed(held: Metadata, image: &mut Image, position: u64, tag: Tag) -> Result<Metadata, Refusal> {
    let command = insert(position, tag);
    let proof = image.prove(position).unwrap();
    let answer = held.check(&command, proof.as_bytes(), b"");
    assert_eq!(image.apply(&command).err(), answer.err());
    answer.map(|accepted| accepted.metadata)
}

#[test]
fn a_block_that_comes_again_is_refused() {
    for position in 0..=5 {
        let mut image = five();
        let tag = digest(b"X").unwrap();
        let held = filed(image.metadata(), &mut image, position, tag).unwrap();
        let before = image.clone();
        let again = filed(held, &mut image, position + 1, tag);
        assert_eq!(again, Err(Refusal::Repeated));
        assert_eq!((&image, image.metadata()), (&before, held));
        let proof = image.prove(position).unwrap();
        let wrong = held.check(&insert(position + 1, tag), proof.as_bytes(), b"");
        assert_eq!(wrong, Err(Refusal::WrongPosition(Which::First)));
    }
}

/// Only the tag at p counts, and at position 0 there is none: the same command word for word finds the copy at p + 1.
#[test]
fn another_place_is_no_repeat() {
    for position in 0..=5 {
        for tag in [digest(b"X").unwrap(), [0; 32]] {
            let mut image = five();
            let first = filed(image.metadata(), &mut image, position, tag).unwrap();
            let second = filed(first, &mut image, position, tag).unwrap();
            assert_eq!((image.count(), second), (7, image.metadata()));
            let third = filed(second, &mut image, position + 2, tag);
            assert_eq!(third, Err(Refusal::Repeated));
        }
    }
}

#[test]
fn the_gateway_refuses() {
    let image = five();
    let held = image.metadata();
    let proofs: Vec<_> = (0..=5).map(|p| image.prove(p).unwrap()).collect();
    let proof = |p: usize| proofs[p].as_bytes();
    let mut false_tag = proof(3).to_vec();
    let in_stop = false_tag.len() - 74 + 6;
    false_tag[in_stop] ^= 1;
    let read = Command::Read { position: 3 };
    let delete = Command::Delete { position: 3 };
    let cases: [(Command, &[u8], &[u8], Refusal); 7] = [
        (read, b"", b"", Refusal::BadProof(Which::First)),
        (read, proof(2), b"", Refusal::WrongPosition(Which::First)),
        (read, &false_tag, b"", Refusal::WrongLabel(Which::First)),
        (delete, proof(2), b"", Refusal::BadProof(Which::Second)),
        (
            delete,
            proof(2),
            proof(2),
            Refusal::WrongPosition(Which::Second),
        ),
        (
            delete,
            proof(2),
            &false_tag,
            Refusal::WrongLabel(Which::Second),
        ),
        (
            Command::Read { position: 6 },
            proof(3),
            b"",
            Refusal::BadPosition,
        ),
    ];
    for (command, first, second, refusal) in cases {
        assert_eq!(held.check(&command, first, second), Err(refusal));
    }
    let over = Metadata {
        count: 4097,
        ..held
    };
    assert_eq!(over.check(&read, proof(3), b""), Err(Refusal::BadMetadata));
}

/// The positions that the bits of a number name.
fn set_of(bits: u32) -> Vec<u64> {
    (1..=5).filter(|p| bits >> (p - 1) & 1 == 1).collect()
}

/// The entries of a proof, each of 38 bytes, and its stop.
fn records(proof: &[u8]) -> (Vec<&[u8]>, &[u8]) {
    let stop = proof.len() - 74;
    (proof[3..stop].chunks(38).collect(), &proof[stop..])
}

/// The joint proof put together from the single ones.
fn put_together(image: &Image, positions: &[u64]) -> Vec<u8> {
    let proofs: Vec<_> = positions.iter().map(|&p| image.prove(p).unwrap()).collect();
    let mut body = vec![positions.len() as u8];
    let mut before: Vec<&[u8]> = Vec::new();
    for (place, proof) in proofs.iter().enumerate() {
        let (entries, stop) = records(proof.as_bytes());
        let same = before.iter().zip(&entries).take_while(|(a, b)| a == b);
        let shared = same.count();
        if place > 0 {
            body.extend((shared as u16).to_be_bytes());
        }
        body.extend(entries[shared..].concat());
        body.extend(stop);
        before = entries;
    }
    let length = (body.len() as u32).to_be_bytes();
    [&[1][..], &length, &body].concat()
}

#[test]
fn every_set_of_positions_is_proved_and_read() {
    let image = five();
    for positions in (1..32).map(set_of) {
        let proof = image.prove_joint(&positions).unwrap();
        assert_eq!(proof.as_bytes(), put_together(&image, &positions));
        let tags = positions.iter().map(|&p| letter(p)).collect();
        let answer = image.metadata().check_joint(&positions, proof.as_bytes());
        assert_eq!(answer, Ok(tags));
    }
    let flat = row(&[0; 200]);
    let last: Vec<_> = (169..=200).collect();
    let proof = flat.prove_joint(&last).unwrap();
    assert_eq!(proof.as_bytes().len(), 6 + 74 * 32 + 2 * 31 + 38 * 200);
    let answer = flat.metadata().check_joint(&last, proof.as_bytes());
    let tags = last.iter().map(|&p| numbered(p)).collect();
    assert_eq!(answer, Ok(tags));
}

#[test]
fn sets_are_refused() {
    let (image, many) = (five(), (1..=33).collect::<Vec<_>>());
    let sets: [(&[u64], Refusal); 7] = [
        (&[], Refusal::BadSet),
        (&many, Refusal::BadSet),
        (&[2, 2], Refusal::BadSet),
        (&[9, 0], Refusal::BadSet),
        (&many[..32], Refusal::BadPosition),
        (&[0, 3], Refusal::BadPosition),
        (&[3, u64::MAX], Refusal::BadPosition),
    ];
    for (positions, refusal) in sets {
        assert_eq!(image.prove_joint(positions), Err(refusal));
        let answer = image.metadata().check_joint(positions, b"");
        assert_eq!(answer, Err(refusal));
        let over = Metadata {
            count: 4097,
            ..image.metadata()
        };
        let answer = over.check_joint(positions, b"");
        assert_eq!(answer, Err(Refusal::BadMetadata));
        let answer = store::prove_joint(b"", positions, &mut [], 0);
        assert_eq!(answer, Err(Refusal::BadImage));
    }
    let answer = row(&[0; 201]).prove_joint(&[200, 201]);
    assert_eq!(answer, Err(Refusal::TooDeep));
}

#[test]
fn joint_proofs_are_refused_with_their_place() {
    let image = five();
    let held = image.metadata();
    let all = [1, 2, 3, 4, 5];
    let proof = image.prove_joint(&all).unwrap();
    let changed = |at: usize, by: u8| {
        let mut bytes = proof.as_bytes().to_vec();
        bytes[at] ^= by;
        held.check_joint(&all, &bytes)
    };
    for at in 0..6 {
        let form = Err(Refusal::BadProof(Which::Place(0)));
        assert_eq!(changed(at, 1), form);
    }
    for place in 1..=5 {
        let up_to = image.prove_joint(&all[..place]).unwrap();
        let stop = up_to.as_bytes().len() - 74;
        let which = Which::Place(place as u8);
        let form = Err(Refusal::BadProof(Which::Place(0)));
        assert_eq!(changed(stop, 1), form);
        assert_eq!(changed(stop + 5, 2), Err(Refusal::BadProof(which)));
        assert_eq!(changed(stop + 6, 1), Err(Refusal::WrongLabel(which)));
    }
    for place in 1..=4 {
        let mut other = all.to_vec();
        other.remove(place - 1);
        let other = image.prove_joint(&other).unwrap();
        let which = Which::Place(place as u8);
        let answer = held.check_joint(&all[..4], other.as_bytes());
        assert_eq!(answer, Err(Refusal::WrongPosition(which)));
    }
}

#[test]
fn metadata_is_saved_and_loaded() {
    let held = five().metadata();
    let saved = held.save().unwrap();
    assert_eq!(saved[..7], [1, 0, 36, 0, 0, 0, 5]);
    assert_eq!(Metadata::load(&saved), Ok(held));
    assert_eq!(Metadata::load(&saved[1..]), Err(Refusal::BadMetadata));
}

#[test]
fn lent_buffers() {
    let image = five();
    let mut buffer = [0xA5; 240];
    let proved = store::prove(image.as_bytes(), 3, &mut buffer, 5).unwrap();
    assert_eq!((proved.length, proved.entries), (229, 4));
    assert_eq!(&buffer[5..234], image.prove(3).unwrap().as_bytes());
    assert!(buffer[..5].iter().chain(&buffer[234..]).all(|&b| b == 0xA5));
    let late = store::prove(image.as_bytes(), 3, &mut buffer, usize::MAX);
    assert_eq!(late, Err(Refusal::NoRoom));
    let joint = image.prove_joint(&[2, 4]).unwrap();
    let end = 7 + joint.as_bytes().len();
    let mut buffer = vec![0xA5; end + 5];
    let length = store::prove_joint(image.as_bytes(), &[2, 4], &mut buffer, 7);
    assert_eq!(length, Ok(end - 7));
    assert_eq!(&buffer[7..end], joint.as_bytes());
    assert!(buffer[..7].iter().chain(&buffer[end..]).all(|&b| b == 0xA5));
    let late = store::prove_joint(image.as_bytes(), &[2, 4], &mut buffer, 13);
    assert_eq!(late, Err(Refusal::NoRoom));
    assert_eq!(
        store::shape(image.as_bytes(), &mut [0; 4]),
        Err(Refusal::NoRoom)
    );
    assert_eq!(store::shape(b"", &mut []), Err(Refusal::BadImage));
}
