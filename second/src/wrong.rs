//! Wrong programs on purpose, so that tests can see the comparer find them.
//! Nothing here is in force unless `answers --wrong NAME` names it.

mod filing;
mod joint;
mod repeated;

pub use repeated::{filed_again, sent_again};

use std::sync::atomic::{AtomicBool, AtomicUsize, Ordering};

use crate::block::{HEADER, LONGEST_READINGS};
use crate::command::{Command, Operation};
use crate::frames::{Answer, Request};
use crate::image;
use crate::metadata::{Metadata, MOST_BLOCKS};
use crate::refusal::Refusal;

#[derive(Clone, Copy, Debug, PartialEq, Eq)]
pub enum Wrong {
    /// The last tallest column is taken where heights tie.
    LastTallest,
    /// The empty side is hashed as 32 zero bytes.
    EmptyZeros,
    /// The head's missing tag is hashed as 32 zero bytes.
    HeadZeros,
    /// A position past the end is taken as the end.
    ClampedPosition,
    /// Insert keeps a down entry of level h.
    InsertKeepsDown,
    /// Insert does not keep a right entry of level h.
    InsertLeavesRight,
    /// Delete puts a down entry first at equal level.
    DownFirst,
    /// Delete zeroes the 33 bytes after the ones given up.
    DeleteZeroesNext,
    /// Delete's side ranks are not compared.
    SideRanksUnseen,
    /// Delete takes any entries below the parting.
    AnythingBelow,
    /// 8 does not look at the stop's own.
    OwnUnseen,
    /// 9 does not look at the proved rank.
    CountUnseen,
    /// Rank fields are bounded by 65,535.
    WideRanks,
    /// The second proof is reported as the first.
    SecondAsFirst,
    /// A refusal gives no metadata back.
    MetadataLost,
    /// 4 comes before 3.
    FullFirst,
    /// 5 comes before 6.
    RoomFirst,
    /// The coin word 0 is drawn as 16.
    CoinSixteen,
    /// An image with spare bytes is refused.
    SpareRefused,
    /// The gateway checks the first command of a run and nods at the rest.
    Nods,
    /// The gateway refuses all.
    RefusesAll,
    /// The tag is document 01's, the digest of the readings alone.
    ReadingsAlone,
    /// The tag has version, length and readings under it, and no time.
    TimeLeftOut,
    /// The time stands little-endian under the tag.
    TimeLittleEndian,
    /// The length under the tag is the readings' and not the rest's.
    LengthOfReadings,
    /// Readings are bounded by 4,096, as a digested message is.
    LongReadings,
    /// A digested message is bounded by 4,089, as readings are.
    ShortMessages,
    /// The store writes shared numbers one less than the largest.
    SharedOneLess,
    /// A shared number need not be the largest.
    LargestUnseen,
    /// A shared number above the entries before is taken as all of them.
    SharedClamped,
    /// The joint proof's number is not compared with the positions.
    NumberUnseen,
    /// Bytes after the last stop are not looked at.
    BytesOver,
    /// A record of a kind over 2 is taken as an entry.
    KindUnseen,
    /// A later proof of more than 200 entries is bad form.
    LongIsForm,
    /// 13 comes after 2.
    SetAfterPosition,
    /// A set may have 33 positions.
    OneTooMany,
    /// A position may come again.
    EqualRises,
    /// A refused spelled-out proof is always the first.
    PlaceOne,
    /// Of several refused proofs the last is told.
    LaterFirst,
    /// A later proof's 7 comes before an earlier one's 8 or 9.
    SevensFirst,
    /// A proof is looked at before the form of the ones after it.
    FormLate,
    /// The tags come in the reverse order.
    TagsReversed,
    /// A refusal gives the tags of the places before.
    TagsKept,
    /// Of a joint proof only the first is checked.
    NodsAtTheRest,
    /// In a joint proof 5 comes before 6.
    JointRoomFirst,
    /// A joint proof without room leaves its first byte.
    PartlyWritten,
    /// A joint proof is answered with a k.
    JointAnswersK,
    /// Apply files a repeated block.
    RepeatFiled,
    /// The gateway takes a repeated block.
    RepeatPredicted,
    /// 14 is given at position 0 too, for a zero tag.
    RepeatAtHead,
    /// 14 is given for Replace too.
    RepeatReplaced,
    /// 14 compares the first 31 bytes.
    LastByteUnseen,
    /// A zero tag is taken as none and never repeated.
    ZeroIsNone,
    /// Apply compares the tag at p + 1.
    RepeatOfNext,
    /// Apply compares the tag at p - 1.
    RepeatOfBefore,
    /// Apply refuses the tag of any block.
    RepeatAnywhere,
    /// Apply compares height and tag, as they are recorded.
    RepeatWithHeight,
    /// Apply refuses every edit that leaves equal tags side by side.
    EqualNeighbours,
    /// The gateway compares the tag of a leaf passed last.
    RepeatOfPassed,
    /// 14 comes before 3.
    RepeatBeforeHeight,
    /// 14 comes before 4.
    RepeatBeforeFull,
    /// 14 comes before 7.
    RepeatBeforeForm,
    /// 14 comes before 8.
    RepeatBeforePosition,
    /// 14 comes before 9.
    RepeatBeforeLabel,
    /// In Apply 14 comes after 5.
    RepeatAfterRoom,
    /// 14 names the first proof.
    RepeatNamesFirst,
    /// 14 comes with the tag at p.
    RepeatTellsTag,
    /// A repeat is answered as done, and nothing is filed.
    RepeatIsDone,
    /// Apply changes a lent byte where it refuses a repeat.
    RepeatTouches,
    /// The time at p must be before the new time.
    LeftMustBeBefore,
    /// The new time may be the time at p + 1.
    RightMayBeEqual,
    /// The time at p is not compared.
    LeftTimeUnseen,
    /// The time at p + 1 is not compared.
    RightTimeUnseen,
    /// Times are compared as signed numbers.
    TimesSigned,
    /// At p = 0 the left block's time is compared.
    LeftTimeAtHead,
    /// At p = n the right block's time is compared.
    RightTimeAtEnd,
    /// At p = 0 a long left block is refused.
    LeftLengthAtHead,
    /// At p = n and past it a long right block is refused.
    RightLengthAtEnd,
    /// Past the end a long right block is refused.
    RightPastEnd,
    /// Past the end the left block is not looked at.
    LeftInRangeOnly,
    /// At p = n a second proof that is sent is checked.
    SecondAtEnd,
    /// A neighbour's readings are bounded by 4,096, as a digested message is.
    NeighbourAsMessage,
    /// A long neighbour is one that does not match, 16 and not 11.
    NeighbourLongUnseen,
    /// The left block is not matched with its tag.
    LeftUnmatched,
    /// The right block is not matched with its tag.
    RightUnmatched,
    /// The second proof is for p.
    SecondForP,
    /// The second proof is checked against the metadata after Insert.
    SecondAgainstNew,
    /// 9 does not look at the second proof.
    SecondLabelUnseen,
    /// 8 does not look at the own of the second proof's stop.
    SecondOwnUnseen,
    /// 14 compares the new block with the left block that is sent.
    RepeatOfSent,
    /// 14 is given for the tag at p + 1 too.
    RepeatOfRight,
    /// 11 comes after 12.
    LongAfterMetadata,
    /// 11 for a neighbour comes after Insert's own.
    LongAfterInsert,
    /// 11 for the right block comes after its proof.
    LongRightAfterSecond,
    /// In a filing 2 comes before 12.
    FilePositionFirst,
    /// In a filing 4 comes before 3.
    FileFullFirst,
    /// In a filing 14 comes before the first proof's 7, 8 and 9.
    FileRepeatEarly,
    /// In a filing 14 comes after the second proof's 7, 8 and 9.
    FileRepeatAfterSecond,
    /// In a filing 14 comes after 15.
    FileRepeatLast,
    /// The second proof is checked before the first.
    SecondBeforeFirst,
    /// 16 for the left block comes before the second proof's 7, 8 and 9.
    LeftBeforeSecond,
    /// 15 for the left block comes before 16 for the right.
    LeftTimeBeforeRightBlock,
    /// 15 comes before 16.
    TimeBeforeBlock,
    /// 15 comes right after 11.
    TimeBeforeProofs,
    /// A filing reports the new block's tag.
    FileTellsNewTag,
    /// A filing reports the tag in the second proof.
    FileTellsRightTag,
    /// A filing answers the new count, as Apply does.
    FileTellsCount,
    /// A filing is refused with 10 where the proofs do not meet.
    FileAsksMeeting,
    /// In a filing the second proof is reported as the first.
    FileNamesFirst,
    /// 16 says which block.
    BlockNamesProof,
    /// 15 says which comparison.
    TimeNamesProof,
    /// 15 comes with the metadata after Insert.
    OutOfTimeFiled,
    /// 16 comes with the tag at p.
    WrongBlockTellsTag,
    /// 15 and 16 are taken for each other.
    NumbersSwapped,
    /// The place is before the first time that is not earlier.
    PlaceBeforeEqual,
    /// The place counts all times up to the new one, wherever they stand.
    PlaceCounts,
    /// The place is after the last time up to the new one.
    PlaceFromEnd,
    /// The place is looked for by halves, as if the times rose.
    PlaceByHalves,
    /// The place is found among signed times.
    PlaceSigned,
    /// The place is that of the later time, from 1 on.
    PlaceOfLater,
    /// The place is 0 where no time is later.
    PlaceNoneLater,
    /// The last time is not looked at.
    PlaceLastUnseen,
    /// The place is at most 4,096.
    PlaceOfBlocks,
    /// The place is answered as a length.
    PlaceInLength,
}

pub const WRONGS: [(&str, Wrong); 124] = [
    ("last-tallest", Wrong::LastTallest),
    ("empty-zeros", Wrong::EmptyZeros),
    ("head-zeros", Wrong::HeadZeros),
    ("clamped-position", Wrong::ClampedPosition),
    ("insert-keeps-down", Wrong::InsertKeepsDown),
    ("insert-leaves-right", Wrong::InsertLeavesRight),
    ("down-first", Wrong::DownFirst),
    ("delete-zeroes-next", Wrong::DeleteZeroesNext),
    ("side-ranks-unseen", Wrong::SideRanksUnseen),
    ("anything-below", Wrong::AnythingBelow),
    ("own-unseen", Wrong::OwnUnseen),
    ("count-unseen", Wrong::CountUnseen),
    ("wide-ranks", Wrong::WideRanks),
    ("second-as-first", Wrong::SecondAsFirst),
    ("metadata-lost", Wrong::MetadataLost),
    ("full-first", Wrong::FullFirst),
    ("room-first", Wrong::RoomFirst),
    ("coin-sixteen", Wrong::CoinSixteen),
    ("spare-refused", Wrong::SpareRefused),
    ("nods", Wrong::Nods),
    ("refuses-all", Wrong::RefusesAll),
    ("readings-alone", Wrong::ReadingsAlone),
    ("time-left-out", Wrong::TimeLeftOut),
    ("time-little-endian", Wrong::TimeLittleEndian),
    ("length-of-readings", Wrong::LengthOfReadings),
    ("long-readings", Wrong::LongReadings),
    ("short-messages", Wrong::ShortMessages),
    ("shared-one-less", Wrong::SharedOneLess),
    ("largest-unseen", Wrong::LargestUnseen),
    ("shared-clamped", Wrong::SharedClamped),
    ("number-unseen", Wrong::NumberUnseen),
    ("bytes-over", Wrong::BytesOver),
    ("kind-unseen", Wrong::KindUnseen),
    ("long-is-form", Wrong::LongIsForm),
    ("set-after-position", Wrong::SetAfterPosition),
    ("one-too-many", Wrong::OneTooMany),
    ("equal-rises", Wrong::EqualRises),
    ("place-one", Wrong::PlaceOne),
    ("later-first", Wrong::LaterFirst),
    ("sevens-first", Wrong::SevensFirst),
    ("form-late", Wrong::FormLate),
    ("tags-reversed", Wrong::TagsReversed),
    ("tags-kept", Wrong::TagsKept),
    ("nods-at-the-rest", Wrong::NodsAtTheRest),
    ("joint-room-first", Wrong::JointRoomFirst),
    ("partly-written", Wrong::PartlyWritten),
    ("joint-answers-k", Wrong::JointAnswersK),
    ("repeat-filed", Wrong::RepeatFiled),
    ("repeat-predicted", Wrong::RepeatPredicted),
    ("repeat-at-head", Wrong::RepeatAtHead),
    ("repeat-replaced", Wrong::RepeatReplaced),
    ("last-byte-unseen", Wrong::LastByteUnseen),
    ("zero-is-none", Wrong::ZeroIsNone),
    ("repeat-of-next", Wrong::RepeatOfNext),
    ("repeat-of-before", Wrong::RepeatOfBefore),
    ("repeat-anywhere", Wrong::RepeatAnywhere),
    ("repeat-with-height", Wrong::RepeatWithHeight),
    ("equal-neighbours", Wrong::EqualNeighbours),
    ("repeat-of-passed", Wrong::RepeatOfPassed),
    ("repeat-before-height", Wrong::RepeatBeforeHeight),
    ("repeat-before-full", Wrong::RepeatBeforeFull),
    ("repeat-before-form", Wrong::RepeatBeforeForm),
    ("repeat-before-position", Wrong::RepeatBeforePosition),
    ("repeat-before-label", Wrong::RepeatBeforeLabel),
    ("repeat-after-room", Wrong::RepeatAfterRoom),
    ("repeat-names-first", Wrong::RepeatNamesFirst),
    ("repeat-tells-tag", Wrong::RepeatTellsTag),
    ("repeat-is-done", Wrong::RepeatIsDone),
    ("repeat-touches", Wrong::RepeatTouches),
    ("left-must-be-before", Wrong::LeftMustBeBefore),
    ("right-may-be-equal", Wrong::RightMayBeEqual),
    ("left-time-unseen", Wrong::LeftTimeUnseen),
    ("right-time-unseen", Wrong::RightTimeUnseen),
    ("times-signed", Wrong::TimesSigned),
    ("left-time-at-head", Wrong::LeftTimeAtHead),
    ("right-time-at-end", Wrong::RightTimeAtEnd),
    ("left-length-at-head", Wrong::LeftLengthAtHead),
    ("right-length-at-end", Wrong::RightLengthAtEnd),
    ("right-past-end", Wrong::RightPastEnd),
    ("left-in-range-only", Wrong::LeftInRangeOnly),
    ("second-at-end", Wrong::SecondAtEnd),
    ("neighbour-as-message", Wrong::NeighbourAsMessage),
    ("neighbour-long-unseen", Wrong::NeighbourLongUnseen),
    ("left-unmatched", Wrong::LeftUnmatched),
    ("right-unmatched", Wrong::RightUnmatched),
    ("second-for-p", Wrong::SecondForP),
    ("second-against-new", Wrong::SecondAgainstNew),
    ("second-label-unseen", Wrong::SecondLabelUnseen),
    ("second-own-unseen", Wrong::SecondOwnUnseen),
    ("repeat-of-sent", Wrong::RepeatOfSent),
    ("repeat-of-right", Wrong::RepeatOfRight),
    ("long-after-metadata", Wrong::LongAfterMetadata),
    ("long-after-insert", Wrong::LongAfterInsert),
    ("long-right-after-second", Wrong::LongRightAfterSecond),
    ("file-position-first", Wrong::FilePositionFirst),
    ("file-full-first", Wrong::FileFullFirst),
    ("file-repeat-early", Wrong::FileRepeatEarly),
    ("file-repeat-after-second", Wrong::FileRepeatAfterSecond),
    ("file-repeat-last", Wrong::FileRepeatLast),
    ("second-before-first", Wrong::SecondBeforeFirst),
    ("left-before-second", Wrong::LeftBeforeSecond),
    (
        "left-time-before-right-block",
        Wrong::LeftTimeBeforeRightBlock,
    ),
    ("time-before-block", Wrong::TimeBeforeBlock),
    ("time-before-proofs", Wrong::TimeBeforeProofs),
    ("file-tells-new-tag", Wrong::FileTellsNewTag),
    ("file-tells-right-tag", Wrong::FileTellsRightTag),
    ("file-tells-count", Wrong::FileTellsCount),
    ("file-asks-meeting", Wrong::FileAsksMeeting),
    ("file-names-first", Wrong::FileNamesFirst),
    ("block-names-proof", Wrong::BlockNamesProof),
    ("time-names-proof", Wrong::TimeNamesProof),
    ("out-of-time-filed", Wrong::OutOfTimeFiled),
    ("wrong-block-tells-tag", Wrong::WrongBlockTellsTag),
    ("numbers-swapped", Wrong::NumbersSwapped),
    ("place-before-equal", Wrong::PlaceBeforeEqual),
    ("place-counts", Wrong::PlaceCounts),
    ("place-from-end", Wrong::PlaceFromEnd),
    ("place-by-halves", Wrong::PlaceByHalves),
    ("place-signed", Wrong::PlaceSigned),
    ("place-of-later", Wrong::PlaceOfLater),
    ("place-none-later", Wrong::PlaceNoneLater),
    ("place-last-unseen", Wrong::PlaceLastUnseen),
    ("place-of-blocks", Wrong::PlaceOfBlocks),
    ("place-in-length", Wrong::PlaceInLength),
];

/// The place in `WRONGS` of the wrong in force, from 1 on; 0 for none.
static CHOSEN: AtomicUsize = AtomicUsize::new(0);
static NODDING: AtomicBool = AtomicBool::new(false);

/// Puts a wrong in force for the rest of the process; false if none has the name.
pub fn choose(name: &str) -> bool {
    let place = WRONGS.iter().position(|(known, _)| *known == name);
    CHOSEN.store(place.map_or(0, |place| place + 1), Ordering::SeqCst);
    place.is_some()
}

fn chosen() -> Option<Wrong> {
    let place = CHOSEN.load(Ordering::SeqCst).checked_sub(1)?;
    Some(WRONGS[place].1)
}

/// Whether this wrong is in force.
pub fn wrong(which: Wrong) -> bool {
    chosen() == Some(which)
}

/// The call as a wrong program takes it.
pub fn request(request: Request) -> Request {
    if !wrong(Wrong::ClampedPosition) {
        return request;
    }
    match request {
        Request::Prove {
            p,
            place,
            length,
            image,
        } => Request::Prove {
            p: p.min(blocks_in(&image)),
            place,
            length,
            image,
        },
        Request::Apply { command, image } => Request::Apply {
            command: clamped(command, blocks_in(&image)),
            image,
        },
        Request::Gateway {
            held,
            command,
            first,
            second,
        } => Request::Gateway {
            held,
            command: clamped(command, held.count),
            first,
            second,
        },
        other => other,
    }
}

fn blocks_in(buffer: &[u8]) -> u32 {
    image::read(buffer).map_or(0, |blocks| blocks.len() as u32)
}

fn clamped(command: Command, n: u32) -> Command {
    let p = command.p.min(n);
    Command { p, ..command }
}

/// The message of a tag as a wrong program joins it.
pub fn message(message: Vec<u8>) -> Vec<u8> {
    let (header, readings) = message.split_at(HEADER);
    let (version, time) = (&header[..1], &header[3..]);
    let length = (readings.len() as u16).to_be_bytes();
    match chosen() {
        Some(Wrong::ReadingsAlone) => readings.to_vec(),
        Some(Wrong::TimeLeftOut) => [version, &length, readings].concat(),
        Some(Wrong::LengthOfReadings) => [version, &length, time, readings].concat(),
        Some(Wrong::TimeLittleEndian) => {
            let little: Vec<u8> = time.iter().rev().copied().collect();
            [&header[..3], &little, readings].concat()
        }
        _ => message,
    }
}

/// The answer as a wrong program gives it.
pub fn answer(request: &Request, answer: Answer) -> Answer {
    match chosen() {
        Some(Wrong::SecondAsFirst) => Answer {
            which: answer.which.min(1),
            ..answer
        },
        Some(Wrong::MetadataLost) if answer.refusal != 0 => Answer {
            metadata: Metadata::default(),
            ..answer
        },
        Some(Wrong::CoinSixteen) if *request == (Request::Height { word: 0 }) => Answer {
            count: 16,
            ..answer
        },
        Some(Wrong::FullFirst) => full_first(request, answer),
        Some(Wrong::RoomFirst) => room_first(request, answer),
        Some(Wrong::SpareRefused) => spare_refused(request, answer),
        Some(Wrong::Nods) => nods(request, answer),
        Some(Wrong::RefusesAll) => refuses_all(request, answer),
        Some(Wrong::ShortMessages) => short_messages(request, answer),
        Some(wrong) => {
            let answer = joint::answer(wrong, request, answer);
            let answer = repeated::answer(wrong, request, answer);
            filing::answer(wrong, request, answer)
        }
        None => answer,
    }
}

fn full_first(request: &Request, answer: Answer) -> Answer {
    match request {
        Request::Gateway { held, command, .. }
            if command.operation == Operation::Insert
                && answer.refusal == Refusal::BadHeight.number()
                && held.count == MOST_BLOCKS =>
        {
            let refusal = Refusal::Full.number();
            Answer { refusal, ..answer }
        }
        _ => answer,
    }
}

fn room_first(request: &Request, answer: Answer) -> Answer {
    match request {
        Request::Prove { length, .. }
            if answer.refusal == Refusal::TooDeep.number() && *length < 7715 =>
        {
            let refusal = Refusal::NoRoom.number();
            Answer { refusal, ..answer }
        }
        _ => answer,
    }
}

fn spare_refused(request: &Request, answer: Answer) -> Answer {
    match request {
        Request::Check { image } => {
            let n = answer.metadata.count as usize;
            match answer.refusal == 0 && image.len() > image::length(n) {
                true => Answer {
                    refusal: Refusal::BadImage.number(),
                    ..Answer::default()
                },
                false => answer,
            }
        }
        _ => answer,
    }
}

fn nods(request: &Request, answer: Answer) -> Answer {
    match request {
        Request::Gateway { .. } if NODDING.swap(true, Ordering::Relaxed) => Answer {
            refusal: 0,
            which: 0,
            ..answer
        },
        _ => answer,
    }
}

fn refuses_all(request: &Request, answer: Answer) -> Answer {
    match request {
        Request::Gateway { held, .. } if answer.refusal == 0 => Answer {
            refusal: 9,
            which: 1,
            metadata: *held,
            ..Answer::default()
        },
        _ => answer,
    }
}

fn short_messages(request: &Request, answer: Answer) -> Answer {
    match request {
        Request::Digest { message } if message.len() > LONGEST_READINGS => Answer {
            refusal: Refusal::LongMessage.number(),
            ..Answer::default()
        },
        _ => answer,
    }
}
