//! Wrong programs on late blocks (document 02, ask 5). A filing is looked at
//! here as a list of reasons to refuse it, each on its own; a wrong program has
//! them in another order, or takes one of them for another.

use super::Wrong;
use crate::answers;
use crate::block::{Block, LONGEST_MESSAGE, LONGEST_READINGS};
use crate::cases::raw::{stop_tag, RawProof};
use crate::command::{Command, Operation};
use crate::frames::{Answer, File, FindPlace, Request};
use crate::gateway::{self, Accepted};
use crate::metadata::MOST_BLOCKS;
use crate::refusal::{Refusal, Which};

#[derive(Clone, Copy, Debug, PartialEq, Eq)]
enum Reason {
    LongNew,
    LongLeft,
    LongRight,
    Metadata,
    Position,
    Height,
    Full,
    First,
    Repeated,
    Second,
    WrongLeft,
    WrongRight,
    Early,
    Late,
}

use Reason::{
    Early, First, Full, Height, Late, LongLeft, LongNew, LongRight, Metadata, Position, Repeated,
    Second, WrongLeft, WrongRight,
};

/// The order in which the filer looks at them.
const ORDER: [Reason; 14] = [
    LongNew, LongLeft, LongRight, Metadata, Position, Height, Full, First, Repeated, Second,
    WrongLeft, WrongRight, Early, Late,
];

/// The order without these, and with them right behind another.
fn moved(reasons: &[Reason], behind: Reason) -> Vec<Reason> {
    let others = ORDER.into_iter().filter(|reason| !reasons.contains(reason));
    let mut order: Vec<Reason> = others.collect();
    let at = order.iter().position(|reason| *reason == behind);
    let at = at.map_or(0, |at| at + 1);
    order.splice(at..at, reasons.iter().copied());
    order
}

/// The order in which a wrong program looks at them.
fn order(wrong: Wrong) -> Vec<Reason> {
    match wrong {
        Wrong::LongAfterMetadata => moved(&[LongNew, LongLeft, LongRight], Metadata),
        Wrong::LongAfterInsert => moved(&[LongLeft, LongRight], Repeated),
        Wrong::LongRightAfterSecond => moved(&[LongRight], Second),
        Wrong::FilePositionFirst => moved(&[Metadata], Position),
        Wrong::FileFullFirst => moved(&[Height], Full),
        Wrong::FileRepeatEarly => moved(&[First], Repeated),
        Wrong::FileRepeatAfterSecond => moved(&[Repeated], Second),
        Wrong::FileRepeatLast => moved(&[Repeated], Late),
        Wrong::SecondBeforeFirst => moved(&[First, Repeated], Second),
        Wrong::LeftBeforeSecond => moved(&[Second], WrongLeft),
        Wrong::LeftTimeBeforeRightBlock => moved(&[WrongRight], Early),
        Wrong::TimeBeforeBlock => moved(&[WrongLeft, WrongRight], Late),
        Wrong::TimeBeforeProofs => moved(&[Early, Late], LongRight),
        _ => ORDER.to_vec(),
    }
}

/// A filing as a wrong program sees it.
struct Filing<'a> {
    wrong: Wrong,
    call: &'a File,
}

impl Filing<'_> {
    fn is(&self, wrong: Wrong) -> bool {
        self.wrong == wrong
    }

    fn has_left(&self) -> bool {
        let past = self.call.p > self.call.held.count;
        self.call.p >= 1 && !(past && self.is(Wrong::LeftInRangeOnly))
    }

    fn has_right(&self) -> bool {
        let (p, n) = (self.call.p, self.call.held.count);
        p < n || p > n && self.is(Wrong::RightPastEnd)
    }

    fn insert(&self) -> Command {
        Command {
            operation: Operation::Insert,
            p: self.call.p,
            height: self.call.height,
            tag: self.call.new.tag().unwrap_or_default(),
        }
    }

    /// Whether a neighbour is too long.
    fn is_long(&self, sent: &Block) -> bool {
        let most = match self.wrong {
            Wrong::NeighbourAsMessage => LONGEST_MESSAGE,
            Wrong::NeighbourLongUnseen => usize::MAX,
            _ => LONGEST_READINGS,
        };
        sent.readings.len() > most
    }

    /// 7, 8 and 9 on the second proof.
    fn second(&self) -> Option<Refusal> {
        let call = self.call;
        let step = u32::from(!self.is(Wrong::SecondForP));
        let wanted = call.p.saturating_add(step);
        let held = match (self.wrong, self.inserted()) {
            (Wrong::SecondAgainstNew, Ok(accepted)) => accepted.metadata,
            _ => call.held,
        };
        let told = gateway::examine(&held, wanted, &call.second, Which::Second);
        match told.err() {
            Some(Refusal::WrongLabel(_)) if self.is(Wrong::SecondLabelUnseen) => None,
            Some(Refusal::WrongPosition(_)) if self.is(Wrong::SecondOwnUnseen) => {
                let proof = RawProof::read(&call.second);
                let stands = proof.position() == wanted && proof.metadata() == call.held;
                (!stands).then_some(Refusal::WrongPosition(Which::Second))
            }
            told => told,
        }
    }

    fn repeats(&self) -> bool {
        let (call, insert) = (self.call, self.insert());
        let of_right = self.has_right() && insert.tag == stop_tag(&call.second);
        match self.wrong {
            Wrong::RepeatOfSent => self.has_left() && call.new == call.left,
            Wrong::RepeatOfRight => insert.repeats(&stop_tag(&call.first)) || of_right,
            _ => insert.repeats(&stop_tag(&call.first)),
        }
    }

    /// Whether the second time comes before the first, or is equal to it where
    /// that is out of time too.
    fn out_of_time(&self, first: u32, second: u32, equal: bool) -> bool {
        let order = match self.wrong {
            Wrong::TimesSigned => (first as i32).cmp(&(second as i32)),
            _ => first.cmp(&second),
        };
        order.is_gt() || equal && order.is_eq()
    }

    fn early(&self) -> bool {
        let equal = self.is(Wrong::LeftMustBeBefore);
        let looked_at = self.has_left() || self.is(Wrong::LeftTimeAtHead);
        let looked_at = looked_at && !self.is(Wrong::LeftTimeUnseen);
        looked_at && self.out_of_time(self.call.left.time, self.call.new.time, equal)
    }

    fn late(&self) -> bool {
        let equal = !self.is(Wrong::RightMayBeEqual);
        let looked_at = self.has_right() || self.is(Wrong::RightTimeAtEnd);
        let looked_at = looked_at && !self.is(Wrong::RightTimeUnseen);
        looked_at && self.out_of_time(self.call.new.time, self.call.right.time, equal)
    }

    /// The refusal for this reason, where there is the reason.
    fn due(&self, reason: Reason) -> Option<Refusal> {
        let (call, n) = (self.call, self.call.held.count);
        let at_end = self.is(Wrong::SecondAtEnd) && !call.second.is_empty();
        let left = self.has_left() || self.is(Wrong::LeftLengthAtHead);
        let right = self.has_right() || self.is(Wrong::RightLengthAtEnd);
        let (due, refusal) = match reason {
            LongNew => (call.new.tag().is_err(), Refusal::LongMessage),
            LongLeft => (left && self.is_long(&call.left), Refusal::LongMessage),
            LongRight => (right && self.is_long(&call.right), Refusal::LongMessage),
            Metadata => (n > MOST_BLOCKS, Refusal::BadMetadata),
            Position => (call.p > n, Refusal::BadPosition),
            Height => (call.height > 15, Refusal::BadHeight),
            Full => (n == MOST_BLOCKS, Refusal::Full),
            First => return gateway::examine(&call.held, call.p, &call.first, Which::First).err(),
            Repeated => (self.repeats(), Refusal::Repeated),
            Second if self.has_right() || at_end => return self.second(),
            Second => return None,
            WrongLeft => (self.left_differs(), Refusal::WrongBlock),
            WrongRight => (self.right_differs(), Refusal::WrongBlock),
            Early => (self.early(), Refusal::OutOfTime),
            Late => (self.late(), Refusal::OutOfTime),
        };
        due.then_some(refusal)
    }

    fn left_differs(&self) -> bool {
        let looked_at = self.has_left() && !self.is(Wrong::LeftUnmatched);
        looked_at && self.call.left.tag() != Ok(stop_tag(&self.call.first))
    }

    fn right_differs(&self) -> bool {
        let looked_at = self.has_right() && !self.is(Wrong::RightUnmatched);
        looked_at && self.call.right.tag() != Ok(stop_tag(&self.call.second))
    }

    /// The first reason in the wrong program's order, or Insert's answer.
    fn told(&self) -> Result<Accepted, Refusal> {
        let mut reasons = order(self.wrong).into_iter();
        match reasons.find_map(|reason| self.due(reason)) {
            Some(refusal) => Err(refusal),
            None => self.inserted(),
        }
    }

    fn inserted(&self) -> Result<Accepted, Refusal> {
        gateway::check(&self.call.held, &self.insert(), &self.call.first, &[])
    }

    /// Whether Delete of p + 1 by these proofs would be refused with 10.
    fn does_not_meet(&self) -> bool {
        let call = self.call;
        let delete = Command {
            operation: Operation::Delete,
            p: call.p.saturating_add(1),
            ..self.insert()
        };
        let told = gateway::check(&call.held, &delete, &call.first, &call.second);
        self.has_right() && told == Err(Refusal::NotNeighbours)
    }

    /// The answer, done or refused, as a wrong program tells it.
    fn answer(&self) -> Answer {
        let told = self.told();
        let mut answer = answers::judged(&self.call.held, told);
        let (done, number) = (answer.refusal == 0, answer.refusal);
        match self.wrong {
            Wrong::FileTellsNewTag if done => answer.tag = self.insert().tag,
            Wrong::FileTellsRightTag if done => answer.tag = stop_tag(&self.call.second),
            Wrong::FileTellsCount if done => answer.count = answer.metadata.count,
            Wrong::FileAsksMeeting if done && self.does_not_meet() => {
                answer = answers::judged(&self.call.held, Err(Refusal::NotNeighbours));
            }
            Wrong::FileNamesFirst => answer.which = answer.which.min(1),
            Wrong::BlockNamesProof if number == 16 => {
                answer.which = if self.left_differs() { 1 } else { 2 };
            }
            Wrong::TimeNamesProof if number == 15 => {
                answer.which = if self.early() { 1 } else { 2 };
            }
            Wrong::OutOfTimeFiled if number == 15 => {
                let filed = self.inserted().map(|accepted| accepted.metadata);
                answer.metadata = filed.unwrap_or(self.call.held);
            }
            Wrong::WrongBlockTellsTag if number == 16 => answer.tag = stop_tag(&self.call.first),
            Wrong::NumbersSwapped if number >= 15 => answer.refusal = 31 - number,
            _ => (),
        }
        answer
    }
}

/// The answer as this wrong program gives it.
pub fn answer(wrong: Wrong, request: &Request, answer: Answer) -> Answer {
    match request {
        Request::File(call) => Filing { wrong, call }.answer(),
        Request::FindPlace(call) => place(wrong, call, answer),
        _ => answer,
    }
}

/// How many times stand before the first that `ends`.
fn before(times: &[u32], ends: impl Fn(u32) -> bool) -> usize {
    times.iter().take_while(|time| !ends(**time)).count()
}

fn place(wrong: Wrong, call: &FindPlace, mut answer: Answer) -> Answer {
    let (times, new, n) = (&call.times[..], call.new, call.times.len());
    let right = answer.count as usize;
    let place = match wrong {
        Wrong::PlaceBeforeEqual => before(times, |time| time >= new),
        Wrong::PlaceCounts => times.iter().filter(|time| **time <= new).count(),
        Wrong::PlaceFromEnd => n - times.iter().rev().take_while(|time| **time > new).count(),
        Wrong::PlaceByHalves => times.partition_point(|time| *time <= new),
        Wrong::PlaceSigned => before(times, |time| time as i32 > new as i32),
        Wrong::PlaceOfLater if right < n => right + 1,
        Wrong::PlaceNoneLater if right == n => 0,
        Wrong::PlaceLastUnseen if right + 1 == n => n,
        Wrong::PlaceOfBlocks => right.min(MOST_BLOCKS as usize),
        _ => right,
    };
    answer.count = place as u32;
    if wrong == Wrong::PlaceInLength {
        (answer.length, answer.count) = (answer.count, 0);
    }
    answer
}
