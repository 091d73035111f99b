//! The answers of wrong programs to the calls on joint proofs.

use super::Wrong;
use crate::command::{Command, Operation};
use crate::frames::{Answer, CheckJoint, Request};
use crate::gateway;
use crate::joint::{self, Path};
use crate::metadata::Metadata;
use crate::refusal::{Refusal, Which};

/// The bytes of a joint proof of one path of 201 entries, the least that 6
/// refuses.
const TOO_DEEP: u32 = 6 + 201 * 38 + 74;

/// The answer as this wrong program gives it.
pub fn answer(wrong: Wrong, request: &Request, answer: Answer) -> Answer {
    match request {
        Request::ProveJoint(call) => prove(wrong, call.place, call.length, answer),
        Request::CheckJoint(call) => check(wrong, call, answer),
        _ => answer,
    }
}

fn check(wrong: Wrong, call: &CheckJoint, mut answer: Answer) -> Answer {
    let form = answer.refusal == Refusal::BadProof(Which::Place(0)).number() && answer.which == 0;
    let by_place = answer.which > 0;
    match wrong {
        Wrong::PlaceOne => answer.which = answer.which.min(1),
        Wrong::TagsReversed => answer.lent = reversed(&answer.lent),
        Wrong::FormLate if form => return Check::of(call).answer(wrong, answer),
        Wrong::LaterFirst | Wrong::SevensFirst | Wrong::TagsKept | Wrong::NodsAtTheRest
            if by_place =>
        {
            return Check::of(call).answer(wrong, answer);
        }
        _ => (),
    }
    answer
}

fn prove(wrong: Wrong, place: u32, length: u32, mut answer: Answer) -> Answer {
    let too_deep = answer.refusal == Refusal::TooDeep.number();
    let no_room = answer.refusal == Refusal::NoRoom.number();
    match wrong {
        Wrong::JointRoomFirst if too_deep && length < TOO_DEEP => {
            answer.refusal = Refusal::NoRoom.number();
        }
        Wrong::PartlyWritten if no_room && place < length => answer.lent[place as usize] = 1,
        Wrong::JointAnswersK if answer.refusal == 0 => answer.k = 1,
        _ => (),
    }
    answer
}

/// A check's spelled-out proofs, up to the first whose form is bad: what each
/// gets as a single proof of Read, and its tag.
struct Check {
    verdicts: Vec<u8>,
    tags: Vec<Vec<u8>>,
}

impl Check {
    fn of(call: &CheckJoint) -> Check {
        let records = call.joint.get(joint::HEADER + 1..).unwrap_or(&[]);
        let (paths, _) = joint::read_paths(records, call.positions.len());
        let both = call.positions.iter().zip(&paths);
        let verdict = |(p, path): (&u32, &Path)| verdict(&call.held, *p, path);
        let verdicts = both.map(verdict).collect();
        let tags = paths.iter().map(|path| path.stop[6..38].to_vec()).collect();
        Check { verdicts, tags }
    }

    /// The answer with the refusal that stands at an index.
    fn refused_at(&self, at: Option<usize>, answer: Answer) -> Answer {
        let (refusal, which) = match at {
            Some(at) => (self.verdicts[at], at as u8 + 1),
            None => (answer.refusal, answer.which),
        };
        Answer {
            refusal,
            which,
            ..answer
        }
    }

    fn answer(&self, wrong: Wrong, answer: Answer) -> Answer {
        let mut verdicts = self.verdicts.iter();
        let place = usize::from(answer.which);
        match wrong {
            Wrong::LaterFirst => self.refused_at(verdicts.rposition(|v| *v != 0), answer),
            Wrong::SevensFirst => self.refused_at(verdicts.position(|v| *v == 7), answer),
            Wrong::FormLate => self.refused_at(verdicts.position(|v| *v != 0), answer),
            Wrong::TagsKept => Answer {
                lent: self.tags[..place - 1].concat(),
                ..answer
            },
            Wrong::NodsAtTheRest if place > 1 => Answer {
                refusal: 0,
                which: 0,
                lent: self.tags.concat(),
                ..answer
            },
            _ => answer,
        }
    }
}

fn reversed(tags: &[u8]) -> Vec<u8> {
    tags.chunks(32).rev().flatten().copied().collect()
}

/// The refusal's number of a single proof of Read, 0 where it is accepted.
fn verdict(held: &Metadata, p: u32, path: &Path) -> u8 {
    let read = Command {
        operation: Operation::Read,
        p,
        height: 0,
        tag: [0; 32],
    };
    let told = gateway::check(held, &read, &path.spelled_out(), &[]);
    told.err().map_or(0, Refusal::number)
}
