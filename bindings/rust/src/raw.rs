//! The C interface (`include/quaythistle.h`), as it is.

use crate::{Refusal, Which};

#[repr(C)]
#[derive(Clone, Copy)]
pub struct Digest {
    pub bytes: [u8; 32],
}

#[repr(C)]
#[derive(Clone, Copy)]
pub struct Verdict {
    pub refusal: u32,
    pub proof: u32,
}

#[repr(C)]
#[derive(Clone, Copy)]
pub struct Metadata {
    pub count: u64,
    pub label: Digest,
}

#[repr(C)]
#[derive(Clone, Copy)]
pub struct Command {
    pub operation: u32,
    pub height: u32,
    pub position: u64,
    pub tag: Digest,
}

#[repr(C)]
#[derive(Clone, Copy)]
pub struct Filing {
    pub position: u64,
    pub height: u32,
    pub time: u32,
    pub left_time: u32,
    pub right_time: u32,
}

#[repr(C)]
pub struct Digested {
    pub verdict: Verdict,
    pub digest: Digest,
}

#[repr(C)]
pub struct Matched {
    pub verdict: Verdict,
    pub yes: bool,
}

#[repr(C)]
pub struct MetadataAnswer {
    pub verdict: Verdict,
    pub metadata: Metadata,
}

#[repr(C)]
pub struct Proved {
    pub verdict: Verdict,
    pub length: u64,
    pub entries: u64,
}

#[repr(C)]
pub struct Counted {
    pub verdict: Verdict,
    pub count: u64,
}

#[repr(C)]
pub struct Saved {
    pub verdict: Verdict,
    pub bytes: [u8; 39],
}

#[repr(C)]
pub struct Answer {
    pub verdict: Verdict,
    pub tag: Digest,
    pub metadata: Metadata,
}

#[repr(C)]
pub struct JointAnswer {
    pub verdict: Verdict,
    pub number: u64,
    pub tags: [Digest; 32],
    pub metadata: Metadata,
}

extern "C" {
    pub fn qt_sha256_digest(message: *const u8, length: usize) -> Digested;
    pub fn qt_sha256_digest_joined(
        first: *const u8,
        first_length: usize,
        second: *const u8,
        second_length: usize,
    ) -> Digested;
    pub fn qt_labels_tag(time: u32, readings: *const u8, length: usize) -> Digested;
    pub fn qt_labels_matches(tag: Digest, time: u32, readings: *const u8, length: usize)
        -> Matched;
    pub fn qt_labels_height(word: u16) -> u8;
    pub fn qt_store_check(image: *const u8, length: usize) -> MetadataAnswer;
    pub fn qt_store_prove(
        image: *const u8,
        length: usize,
        position: u64,
        buffer: *mut u8,
        room: usize,
        place: u64,
    ) -> Proved;
    pub fn qt_store_apply(image: *mut u8, length: usize, command: Command) -> Counted;
    pub fn qt_shapes_shape(
        image: *const u8,
        length: usize,
        entries: *mut u64,
        room: usize,
    ) -> Counted;
    pub fn qt_gateway_save(metadata: Metadata) -> Saved;
    pub fn qt_gateway_load(saved: *const u8, length: usize) -> MetadataAnswer;
    pub fn qt_gateway_check(
        metadata: Metadata,
        command: Command,
        first: *const u8,
        first_length: usize,
        second: *const u8,
        second_length: usize,
    ) -> Answer;
    pub fn qt_jointstore_prove(
        image: *const u8,
        length: usize,
        positions: *const u64,
        number: usize,
        buffer: *mut u8,
        room: usize,
        place: u64,
    ) -> Proved;
    pub fn qt_jointgateway_check(
        metadata: Metadata,
        positions: *const u64,
        number: usize,
        proof: *const u8,
        length: usize,
    ) -> JointAnswer;
    pub fn qt_times_place(times: *const u32, number: usize, time: u32) -> u64;
    pub fn qt_filer_file(
        metadata: Metadata,
        filing: Filing,
        readings: *const u8,
        readings_length: usize,
        left: *const u8,
        left_length: usize,
        right: *const u8,
        right_length: usize,
        first: *const u8,
        first_length: usize,
        second: *const u8,
        second_length: usize,
    ) -> Answer;
}

impl Verdict {
    /// What the call answers where it is done, else the refusal, with the proof of a command or a filing that it speaks of.
    pub fn settled<T>(self, answer: T) -> Result<T, Refusal> {
        let which = match self.proof {
            2 => Which::Second,
            _ => Which::First,
        };
        self.settled_of(which, answer)
    }

    /// The same of a joint proof: the refusal speaks of a place.
    pub fn settled_at_place<T>(self, answer: T) -> Result<T, Refusal> {
        self.settled_of(Which::Place(self.proof as u8), answer)
    }

    fn settled_of<T>(self, which: Which, answer: T) -> Result<T, Refusal> {
        match Refusal::numbered(self.refusal, which) {
            None => Ok(answer),
            Some(refusal) => Err(refusal),
        }
    }
}

#[cfg(test)]
mod tests {
    use super::*;
    use std::mem::{align_of, size_of};

    /// The sizes and alignments that `tests/c/layout.h` holds the header to.
    #[test]
    fn sizes_are_the_header_s() {
        assert_eq!((size_of::<Digest>(), align_of::<Digest>()), (32, 1));
        assert_eq!((size_of::<Verdict>(), align_of::<Verdict>()), (8, 4));
        assert_eq!((size_of::<Metadata>(), align_of::<Metadata>()), (40, 8));
        assert_eq!((size_of::<Command>(), align_of::<Command>()), (48, 8));
        assert_eq!((size_of::<Filing>(), align_of::<Filing>()), (24, 8));
        assert_eq!((size_of::<Digested>(), align_of::<Digested>()), (40, 4));
        assert_eq!((size_of::<Matched>(), align_of::<Matched>()), (12, 4));
        assert_eq!(size_of::<MetadataAnswer>(), 48);
        assert_eq!(size_of::<Proved>(), 24);
        assert_eq!(size_of::<Counted>(), 16);
        assert_eq!(size_of::<Saved>(), 48);
        assert_eq!(size_of::<Answer>(), 80);
        assert_eq!(size_of::<JointAnswer>(), 1080);
    }

    #[test]
    fn verdicts_are_settled() {
        let verdict = |refusal, proof| Verdict { refusal, proof };
        assert_eq!(verdict(0, 0).settled(7), Ok(7));
        assert_eq!(verdict(0, 0).settled_at_place(7), Ok(7));
        for number in 1..=16 {
            let speaks = |which| Some(which).filter(|_| (7..=9).contains(&number));
            for (proof, which) in [(1, Which::First), (2, Which::Second)] {
                let refusal = verdict(number, proof).settled(7).unwrap_err();
                assert_eq!((refusal.number(), refusal.proof()), (number, speaks(which)));
            }
            for place in 0..=32 {
                let refusal = verdict(number, place).settled_at_place(7).unwrap_err();
                let which = Which::Place(place as u8);
                assert_eq!((refusal.number(), refusal.proof()), (number, speaks(which)));
            }
        }
    }
}
