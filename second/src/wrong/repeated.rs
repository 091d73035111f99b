//! Wrong programs on repeated tags (document 02, ask 4).

use super::{blocks_in, chosen, Wrong};
use crate::cases::raw::stop_tag;
use crate::command::{Command, Operation};
use crate::frames::{Answer, Request};
use crate::image;
use crate::proof::{Entry, Proof};
use crate::refusal::Refusal;
use crate::sha256::Digest;
use crate::store::{edit, tag_at};
use crate::tree::Column;

/// Insert after a position from 1 on.
fn inserts_after(command: &Command) -> bool {
    command.operation == Operation::Insert && command.p >= 1
}

/// Whether Apply of a wrong program takes the new tag as repeated.
pub fn filed_again(command: &Command, blocks: &[Column], repeats: bool) -> bool {
    let (p, n) = (command.p, blocks.len() as u32);
    let same = |at: u32| (1..=n).contains(&at) && tag_at(blocks, at) == command.tag;
    let height = |at: u32| blocks[at as usize - 1].height;
    match chosen() {
        Some(Wrong::RepeatFiled) => false,
        Some(Wrong::RepeatOfNext) => inserts_after(command) && same(p + 1),
        Some(Wrong::RepeatOfBefore) => inserts_after(command) && same(p - 1),
        Some(Wrong::RepeatAnywhere) => inserts_after(command) && (1..=n).any(same),
        Some(Wrong::RepeatWithHeight) => repeats && height(p) == command.height,
        Some(Wrong::EqualNeighbours) => leaves_equal(command, blocks),
        _ => looked_at(command, &tag_at(blocks, p), repeats),
    }
}

/// Whether an edit leaves equal tags side by side.
fn leaves_equal(command: &Command, blocks: &[Column]) -> bool {
    let edited = edit(blocks, command);
    let equal = edited.windows(2).any(|two| two[0].tag == two[1].tag);
    equal && command.operation != Operation::Read
}

/// Whether the gateway of a wrong program takes the new tag as repeated.
pub fn sent_again(command: &Command, proof: &Proof, repeats: bool) -> bool {
    match (chosen(), proof.entries.last()) {
        (Some(Wrong::RepeatPredicted), _) => false,
        (Some(Wrong::RepeatOfPassed), Some(Entry::Leaf { tag, .. })) => command.repeats(tag),
        _ => looked_at(command, &proof.stop.tag, repeats),
    }
}

/// What store and gateway of a wrong program have in common.
fn looked_at(command: &Command, at_p: &Digest, repeats: bool) -> bool {
    let equal = |operation| command.operation == operation && command.tag == *at_p;
    match chosen() {
        Some(Wrong::RepeatAtHead) => equal(Operation::Insert),
        Some(Wrong::RepeatReplaced) => repeats || equal(Operation::Replace),
        Some(Wrong::LastByteUnseen) => inserts_after(command) && command.tag[..31] == at_p[..31],
        Some(Wrong::ZeroIsNone) => repeats && *at_p != [0; 32],
        _ => repeats,
    }
}

/// The answer as this wrong program gives it.
pub fn answer(wrong: Wrong, request: &Request, answer: Answer) -> Answer {
    match answer.refusal == Refusal::Repeated.number() {
        true => refused(wrong, request, answer),
        false => too_early(wrong, request, answer),
    }
}

/// 14 comes before another refusal.
fn too_early(wrong: Wrong, request: &Request, answer: Answer) -> Answer {
    let before = match wrong {
        Wrong::RepeatBeforeHeight => 3,
        Wrong::RepeatBeforeFull => 4,
        Wrong::RepeatBeforeForm => 7,
        Wrong::RepeatBeforePosition => 8,
        Wrong::RepeatBeforeLabel => 9,
        _ => return answer,
    };
    match answer.refusal == before && is_due(request) {
        true => Answer {
            refusal: Refusal::Repeated.number(),
            which: 0,
            ..answer
        },
        false => answer,
    }
}

/// Whether the new tag is the one at p, whatever else there is to refuse.
fn is_due(request: &Request) -> bool {
    match request {
        Request::Apply { command, image } => {
            let blocks = image::read(image).unwrap_or_default();
            command.repeats(&tag_at(&blocks, command.p))
        }
        Request::Gateway { command, first, .. } => command.repeats(&stop_tag(first)),
        _ => false,
    }
}

/// Whether the buffer holds one block more.
fn has_room(buffer: &[u8]) -> bool {
    image::length(blocks_in(buffer) as usize + 1) <= buffer.len()
}

/// A refused repeat that is answered as no refused call is.
fn refused(wrong: Wrong, request: &Request, mut answer: Answer) -> Answer {
    match (wrong, request) {
        (Wrong::RepeatNamesFirst, _) => answer.which = 1,
        (Wrong::RepeatTellsTag, Request::Gateway { command, .. }) => answer.tag = command.tag,
        (Wrong::RepeatIsDone, Request::Gateway { command, .. }) => {
            (answer.refusal, answer.tag) = (0, command.tag);
        }
        (Wrong::RepeatIsDone, Request::Apply { image, .. }) => {
            (answer.refusal, answer.count) = (0, blocks_in(image));
        }
        (Wrong::RepeatAfterRoom, Request::Apply { image, .. }) if !has_room(image) => {
            answer.refusal = Refusal::NoRoom.number();
        }
        (Wrong::RepeatTouches, Request::Apply { .. }) => answer.lent[0] ^= 1,
        _ => (),
    }
    answer
}
