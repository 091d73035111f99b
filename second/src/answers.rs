//! The program `answers`: reads calls, writes answers.

use std::io::{self, BufReader, Read, Write};

use crate::block;
use crate::bytes;
use crate::filer;
use crate::frames::{Answer, CheckJoint, ProveJoint, Request, LONGEST_FRAME, UNTOUCHED};
use crate::gateway::{self, Accepted};
use crate::metadata::{self, Metadata};
use crate::refusal::Refusal;
use crate::sha256::Digest;
use crate::store;
use crate::wrong;

/// The line that ends a run at a bad frame.
pub const BAD_FRAME: &[u8] = b"bad frame\n";

/// Answers one call.
pub fn answer(request: &Request) -> Answer {
    match request {
        Request::Digest { message } => or_refused(block::digest(message), tagged),
        Request::Match {
            tag,
            time,
            readings,
        } => or_refused(block::matches(tag, *time, readings), matched),
        Request::Height { word } => counted(u32::from(block::height(*word))),
        Request::Save { metadata } => save(metadata),
        Request::Load { saved } => or_refused(metadata::load(saved), described),
        Request::Check { image } => or_refused(store::check(image), described),
        Request::Prove {
            p,
            place,
            length,
            image,
        } => prove(*p, *place, *length, image),
        Request::Apply { command, image } => {
            let mut lent = image.clone();
            let mut answer = or_refused(store::apply(&mut lent, command), counted);
            answer.lent = lent;
            answer
        }
        Request::Gateway {
            held,
            command,
            first,
            second,
        } => judged(held, gateway::check(held, command, first, second)),
        Request::Tag { time, readings } => or_refused(block::tag(*time, readings), tagged),
        Request::ProveJoint(call) => prove_joint(call),
        Request::CheckJoint(call) => check_joint(call),
        Request::File(call) => judged(&call.held, filer::file(call)),
        Request::FindPlace(call) => counted(filer::find_place(&call.times, call.new)),
    }
}

fn or_refused<T>(result: Result<T, Refusal>, done: impl Fn(T) -> Answer) -> Answer {
    match result {
        Ok(value) => done(value),
        Err(refusal) => refused(refusal),
    }
}

/// Refused, with no metadata.
pub fn refused(refusal: Refusal) -> Answer {
    Answer {
        refusal: refusal.number(),
        which: refusal.which(),
        ..Answer::default()
    }
}

/// Done, with this digest or tag.
pub fn tagged(tag: Digest) -> Answer {
    Answer {
        tag,
        ..Answer::default()
    }
}

/// Done, with yes or no.
pub fn matched(yes: bool) -> Answer {
    Answer {
        yes: u8::from(yes),
        ..Answer::default()
    }
}

/// Done, with a count.
pub fn counted(count: u32) -> Answer {
    Answer {
        count,
        ..Answer::default()
    }
}

fn described(metadata: Metadata) -> Answer {
    Answer {
        metadata,
        ..Answer::default()
    }
}

/// The tag and the new metadata; on a refusal the metadata given.
pub fn judged(held: &Metadata, told: Result<Accepted, Refusal>) -> Answer {
    match told {
        Ok(accepted) => Answer {
            tag: accepted.tag,
            ..described(accepted.metadata)
        },
        Err(refusal) => Answer {
            metadata: *held,
            ..refused(refusal)
        },
    }
}

/// Save gives the metadata it was given, done or refused, and the 39 bytes.
fn save(metadata: &Metadata) -> Answer {
    let (mut answer, lent) = match metadata::save(metadata) {
        Ok(saved) => (Answer::default(), saved),
        Err(refusal) => (refused(refusal), [0; metadata::SAVED]),
    };
    answer.metadata = *metadata;
    answer.lent = lent.to_vec();
    answer
}

fn prove(p: u32, place: u32, length: u32, image: &[u8]) -> Answer {
    let mut lent = vec![UNTOUCHED; length as usize];
    let proved = store::prove(image, p, place, &mut lent);
    let answer = or_refused(proved, |proved| Answer {
        length: proved.length,
        k: proved.k,
        ..Answer::default()
    });
    Answer { lent, ..answer }
}

/// A joint proof has no k: its paths have one each.
fn prove_joint(call: &ProveJoint) -> Answer {
    let mut lent = vec![UNTOUCHED; call.length as usize];
    let proved = store::prove_joint(&call.image, &call.positions, call.place, &mut lent);
    let answer = or_refused(proved, |length| Answer {
        length,
        ..Answer::default()
    });
    Answer { lent, ..answer }
}

/// The tags in order, or none; the metadata given in every case.
fn check_joint(call: &CheckJoint) -> Answer {
    let checked = gateway::check_joint(&call.held, &call.positions, &call.joint);
    let answer = or_refused(checked, |tags| Answer {
        lent: tags.concat(),
        ..Answer::default()
    });
    let metadata = call.held;
    Answer { metadata, ..answer }
}

/// What stands next on the input.
enum Next {
    Call(Request),
    End,
    Bad,
}

/// Input that ends between frames is the end; inside one, a bad frame.
fn next(input: &mut impl Read) -> io::Result<Next> {
    let mut length = Vec::new();
    input.take(4).read_to_end(&mut length)?;
    if length.is_empty() {
        return Ok(Next::End);
    }
    let stated = bytes::number(&length) as usize;
    if length.len() < 4 || stated > LONGEST_FRAME {
        return Ok(Next::Bad);
    }
    let mut rest = Vec::new();
    input.take(stated as u64).read_to_end(&mut rest)?;
    if rest.len() < stated {
        return Ok(Next::Bad);
    }
    Ok(Request::read(&rest).map_or(Next::Bad, Next::Call))
}

/// Answers every call on the input. An answer is sent at the latest when the
/// input must be waited for.
pub fn run(input: impl Read, output: impl Write) -> io::Result<()> {
    let mut input = BufReader::new(input);
    let mut output = io::BufWriter::new(output);
    loop {
        match next(&mut input)? {
            Next::End => break,
            Next::Bad => {
                output.write_all(BAD_FRAME)?;
                break;
            }
            Next::Call(request) => {
                let request = wrong::request(request);
                let answer = wrong::answer(&request, answer(&request));
                output.write_all(&answer.frame())?;
            }
        }
        if input.buffer().is_empty() {
            output.flush()?;
        }
    }
    output.flush()
}

/// What a run writes for the whole of an input.
pub fn run_on(input: &[u8]) -> Vec<u8> {
    let mut output = Vec::new();
    run(input, &mut output).expect("memory is read and written");
    output
}
