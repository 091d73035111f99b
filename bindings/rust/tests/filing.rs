//! Late blocks filed by their time: five blocks whose times never fall, a new one at every place, and every refusal of a filing.

use quaythistle::{
    height, place, Accepted, Block, Command, Filing, Image, Metadata, Refusal, Which,
};

const HEIGHTS: [u8; 5] = [0, 2, 0, 1, 2];

/// Two of one time, and the last but one second that there is.
const TIMES: [u32; 5] = [100, 200, 200, 300, u32::MAX - 1];

const READINGS: [&[u8]; 5] = [b"", b"B", &[0xC; 4089], b"DD", &[0xE; 4089]];

const NEW: &[u8] = b"new readings";

const LONG: &[u8] = &[7; 4090];

/// What a store keeps: the image, and its blocks in their order.
#[derive(Clone, Default)]
struct Store<'a> {
    image: Image,
    blocks: Vec<Block<'a>>,
}

/// All that a filing takes.
#[derive(Clone)]
struct Request<'a> {
    held: Metadata,
    filing: Filing<'a>,
    first: Vec<u8>,
    second: Vec<u8>,
}

impl<'a> Store<'a> {
    fn of_five() -> Store<'a> {
        let mut store = Store::default();
        let blocks = TIMES.iter().zip(READINGS).zip(HEIGHTS);
        for (position, ((&time, readings), height)) in (0..).zip(blocks) {
            let block = Block { time, readings };
            let tag = block.tag().unwrap();
            let insert = Command::Insert {
                position,
                height,
                tag,
            };
            store.insert(&insert, position, block);
        }
        store
    }

    fn insert(&mut self, insert: &Command, position: u64, block: Block<'a>) {
        self.image.apply(insert).unwrap();
        self.blocks.insert(position as usize, block);
    }

    fn times(&self) -> Vec<u32> {
        self.blocks.iter().map(|block| block.time).collect()
    }

    /// The block at a position, none before the first and after the last.
    fn at(&self, position: u64) -> Block<'a> {
        let index = (position as usize).checked_sub(1);
        let block = index.and_then(|index| self.blocks.get(index));
        block.copied().unwrap_or_default()
    }

    fn prove(&self, position: u64) -> Vec<u8> {
        let proof = self.image.prove(position);
        proof.map_or(Vec::new(), |proof| proof.as_bytes().to_vec())
    }

    /// A block at a place, with the blocks and the proofs that the store has there.
    fn request(&self, position: u64, height: u8, block: Block<'a>) -> Request<'a> {
        Request {
            held: self.image.metadata(),
            filing: Filing {
                position,
                height,
                block,
                left: self.at(position),
                right: self.at(position + 1),
            },
            first: self.prove(position),
            second: self.prove(position + 1),
        }
    }
}

impl Request<'_> {
    fn filed(&self) -> Result<Accepted, Refusal> {
        self.held.file(&self.filing, &self.first, &self.second)
    }

    /// The gateway's check of the Insert that the filing is.
    fn inserted(&self) -> Result<Accepted, Refusal> {
        let insert = self.filing.insert()?;
        self.held.check(&insert, &self.first, b"")
    }
}

/// The request is accepted as Insert is, with the tag at p and the metadata of the store's archive after the same Insert.
fn accepted<'a>(store: &mut Store<'a>, request: &Request<'a>) -> Metadata {
    let Filing {
        position, block, ..
    } = request.filing;
    let there = store.at(position).tag().unwrap();
    let reported = if position == 0 { [0; 32] } else { there };
    let answer = request.filed().unwrap();
    assert_eq!(Ok(answer), request.inserted());
    store.insert(&request.filing.insert().unwrap(), position, block);
    assert_eq!(answer.tag, reported);
    assert_eq!(answer.metadata, store.image.metadata());
    answer.metadata
}

fn new(time: u32) -> Block<'static> {
    Block {
        time,
        readings: NEW,
    }
}

#[test]
fn a_place_is_before_the_first_later_time() {
    let times = [[10, 20, 30], [20, 20, 20], [30, 10, 20], [0, u32::MAX, 0]];
    for list in times.iter().flat_map(|list| (0..=3).map(|n| &list[..n])) {
        for time in [0, 9, 10, 19, 20, 30, 31, u32::MAX] {
            let before = list.iter().take_while(|&&there| there <= time);
            assert_eq!(place(list, time), before.count() as u64);
        }
    }
}

#[test]
fn a_block_is_filed_at_its_place_and_nowhere_else() {
    let moments = [0, 99, 100, 199, 200, 201, 300, 301, u32::MAX];
    for (height, time) in (0..).zip(moments) {
        for position in 0..=5 {
            let mut store = Store::of_five();
            let request = store.request(position, height, new(time));
            if position == place(&store.times(), time) {
                accepted(&mut store, &request);
                assert!(store.times().windows(2).all(|pair| pair[0] <= pair[1]));
            } else {
                assert_eq!(request.filed(), Err(Refusal::OutOfTime));
            }
        }
    }
}

#[test]
fn blocks_come_in_any_order() {
    let mut store = Store::default();
    let mut held = store.image.metadata();
    for i in 0..60u16 {
        let time = 1_700_000_000 + 600 * (u32::from(i) * 37 % 50);
        let block = Block {
            time,
            readings: &READINGS[4][usize::from(i)..],
        };
        let position = place(&store.times(), time);
        let request = store.request(position, height(i * i + 1), block);
        assert_eq!(request.held, held);
        held = accepted(&mut store, &request);
    }
    assert!(store.times().windows(2).all(|pair| pair[0] <= pair[1]));
    assert_eq!(store.image.count(), 60);
}

/// It is placed after its copy, but where another block of its time has come in after the copy.
#[test]
fn a_block_that_comes_again_is_refused() {
    for position in [1, 3, 4, 5] {
        let store = Store::of_five();
        let block = store.at(position);
        assert_eq!(place(&store.times(), block.time), position);
        let request = store.request(position, 0, block);
        assert_eq!(request.filed(), Err(Refusal::Repeated));
        assert_eq!(request.inserted(), Err(Refusal::Repeated));
    }
    let mut store = Store::of_five();
    let block = store.at(2);
    assert_eq!(place(&store.times(), block.time), 3);
    let request = store.request(3, 0, block);
    accepted(&mut store, &request);
}

/// A proof of another tag than the one that stands there, which no longer leads to the label held.
fn false_tag(mut proof: Vec<u8>) -> Vec<u8> {
    let in_stop = proof.len() - 74 + 6;
    proof[in_stop] ^= 1;
    proof
}

/// Makes a request be refused.
type Spoil = fn(&mut Request);

/// Reasons to refuse a filing after the third of the five, in their order.
const REASONS: [(Spoil, Refusal); 17] = [
    (|r| r.filing.block.readings = LONG, Refusal::LongMessage),
    (|r| r.filing.left.readings = LONG, Refusal::LongMessage),
    (|r| r.filing.right.readings = LONG, Refusal::LongMessage),
    (|r| r.held.count = 4097, Refusal::BadMetadata),
    (|r| r.filing.position = u64::MAX, Refusal::BadPosition),
    (|r| r.filing.height = 16, Refusal::BadHeight),
    (|r| r.held.count = 4096, Refusal::Full),
    (|r| r.first.clear(), Refusal::BadProof(Which::First)),
    (
        |r| r.first = Store::of_five().prove(4),
        Refusal::WrongPosition(Which::First),
    ),
    (
        |r| r.first = false_tag(Store::of_five().prove(3)),
        Refusal::WrongLabel(Which::First),
    ),
    (
        |r| r.filing.block = Store::of_five().at(3),
        Refusal::Repeated,
    ),
    (|r| r.second.clear(), Refusal::BadProof(Which::Second)),
    (
        |r| r.second = Store::of_five().prove(3),
        Refusal::WrongPosition(Which::Second),
    ),
    (
        |r| r.second = false_tag(Store::of_five().prove(4)),
        Refusal::WrongLabel(Which::Second),
    ),
    (|r| r.filing.left.time -= 1, Refusal::WrongBlock),
    (|r| r.filing.right.readings = NEW, Refusal::WrongBlock),
    (|r| r.filing.block.time = 300, Refusal::OutOfTime),
];

/// Where two reasons are due, the earlier one is given.
#[test]
fn filings_are_refused_in_order() {
    let mut store = Store::of_five();
    let request = store.request(3, 1, new(250));
    for (i, (spoil, refusal)) in REASONS.iter().enumerate() {
        for (later, other) in &REASONS[i..] {
            let mut spoilt = request.clone();
            later(&mut spoilt);
            spoil(&mut spoilt);
            // Past the end no right block is needed, so a long one is not refused.
            let unneeded = i == 2 && *other == Refusal::BadPosition;
            let due = if unneeded { other } else { refusal };
            assert_eq!(spoilt.filed(), Err(*due));
        }
    }
    let mut before = request.clone();
    before.filing.block.time = 199;
    assert_eq!(before.filed(), Err(Refusal::OutOfTime));
    accepted(&mut store, &request);
}

#[test]
fn what_is_not_needed_is_not_looked_at() {
    let strange = Block {
        time: 200,
        readings: LONG,
    };
    let mut store = Store::of_five();
    let mut request = store.request(0, 1, new(50));
    request.filing.left = strange;
    accepted(&mut store, &request);
    let mut store = Store::of_five();
    let mut request = store.request(5, 1, new(u32::MAX));
    request.filing.right = strange;
    request.second = LONG.to_vec();
    accepted(&mut store, &request);
    let mut store = Store::default();
    let mut request = store.request(0, 1, new(150));
    assert_eq!(request.filed(), request.inserted());
    (request.filing.left, request.filing.right) = (strange, strange);
    accepted(&mut store, &request);
}
