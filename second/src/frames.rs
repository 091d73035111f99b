//! The frames of the program `answers`: requests and answers as bytes.

mod filing;
mod joint;

pub use filing::{File, FindPlace};
pub use joint::{CheckJoint, ProveJoint, LONGEST_JOINT_BUFFER};

use crate::bytes;
use crate::command::{Command, Operation, OPERATIONS};
use crate::metadata::Metadata;
use crate::sha256::Digest;

/// A frame whose stated length is over this is bad.
pub const LONGEST_FRAME: usize = 200_000;
/// A proof buffer has at most this many bytes.
pub const LONGEST_BUFFER: u32 = 16_384;
/// The bytes that a proof buffer starts as.
pub const UNTOUCHED: u8 = 0xA5;

/// One call with its fields.
#[derive(Clone, Debug, PartialEq, Eq)]
pub enum Request {
    Digest {
        message: Vec<u8>,
    },
    Match {
        tag: Digest,
        time: u32,
        readings: Vec<u8>,
    },
    Height {
        word: u16,
    },
    Save {
        metadata: Metadata,
    },
    Load {
        saved: Vec<u8>,
    },
    Check {
        image: Vec<u8>,
    },
    Prove {
        p: u32,
        place: u32,
        length: u32,
        image: Vec<u8>,
    },
    Apply {
        command: Command,
        image: Vec<u8>,
    },
    Gateway {
        held: Metadata,
        command: Command,
        first: Vec<u8>,
        second: Vec<u8>,
    },
    Tag {
        time: u32,
        readings: Vec<u8>,
    },
    ProveJoint(ProveJoint),
    CheckJoint(CheckJoint),
    File(File),
    FindPlace(FindPlace),
}

/// Takes fields off the front of a frame; none where the fields are short.
struct Fields<'a>(&'a [u8]);

impl<'a> Fields<'a> {
    fn take(&mut self, n: usize) -> Option<&'a [u8]> {
        let taken = self.0.get(..n)?;
        self.0 = &self.0[n..];
        Some(taken)
    }

    fn byte(&mut self) -> Option<u8> {
        Some(self.take(1)?[0])
    }

    fn number(&mut self) -> Option<u32> {
        self.take(4).map(bytes::number)
    }

    fn digest(&mut self) -> Option<Digest> {
        self.take(32).map(bytes::digest)
    }

    /// Four bytes of length, then so many bytes.
    fn with_length(&mut self) -> Option<Vec<u8>> {
        let length = self.number()?;
        self.take(length as usize).map(<[u8]>::to_vec)
    }

    fn rest(&mut self) -> Vec<u8> {
        std::mem::take(&mut self.0).to_vec()
    }

    fn metadata(&mut self) -> Option<Metadata> {
        let (count, label) = (self.number()?, self.digest()?);
        Some(Metadata { count, label })
    }

    fn command(&mut self) -> Option<Command> {
        let operation = *OPERATIONS.get(usize::from(self.byte()?))?;
        let (p, height, tag) = (self.number()?, self.byte()?, self.digest()?);
        Some(Command {
            operation,
            p,
            height,
            tag,
        })
    }
}

impl Request {
    /// Reads what follows the four bytes of length; none where malformed.
    pub fn read(rest: &[u8]) -> Option<Request> {
        let mut fields = Fields(rest);
        match fields.byte()? {
            1 => Some(Request::Digest {
                message: fields.rest(),
            }),
            2 => Some(Request::Match {
                tag: fields.digest()?,
                time: fields.number()?,
                readings: fields.rest(),
            }),
            3 => Some(Request::Height {
                word: bytes::number(fields.take(2)?) as u16,
            }),
            4 => Some(Request::Save {
                metadata: fields.metadata()?,
            }),
            5 => Some(Request::Load {
                saved: fields.rest(),
            }),
            6 => Some(Request::Check {
                image: fields.rest(),
            }),
            7 => Request::read_prove(fields),
            8 => Some(Request::Apply {
                command: fields.command()?,
                image: fields.rest(),
            }),
            9 => Request::read_gateway(fields),
            10 => Some(Request::Tag {
                time: fields.number()?,
                readings: fields.rest(),
            }),
            11 => ProveJoint::read(fields).map(Request::ProveJoint),
            12 => CheckJoint::read(fields).map(Request::CheckJoint),
            13 => File::read(fields).map(Request::File),
            14 => FindPlace::read(fields).map(Request::FindPlace),
            _ => None,
        }
    }

    fn read_prove(mut fields: Fields) -> Option<Request> {
        let (p, place, length) = (fields.number()?, fields.number()?, fields.number()?);
        let image = fields.rest();
        (length <= LONGEST_BUFFER).then_some(Request::Prove {
            p,
            place,
            length,
            image,
        })
    }

    fn read_gateway(mut fields: Fields) -> Option<Request> {
        let held = fields.metadata()?;
        let command = fields.command()?;
        let first = fields.with_length()?;
        let second = fields.rest();
        Some(Request::Gateway {
            held,
            command,
            first,
            second,
        })
    }

    /// The call byte and the fields.
    fn write(&self) -> Vec<u8> {
        match self {
            Request::Digest { message } => [&[1][..], message].concat(),
            Request::Match {
                tag,
                time,
                readings,
            } => [&[2][..], tag, &time.to_be_bytes(), readings].concat(),
            Request::Height { word } => [&[3][..], &word.to_be_bytes()].concat(),
            Request::Save { metadata } => [&[4][..], &write_metadata(metadata)].concat(),
            Request::Load { saved } => [&[5][..], saved].concat(),
            Request::Check { image } => [&[6][..], image].concat(),
            Request::Prove {
                p,
                place,
                length,
                image,
            } => {
                let numbers = [*p, *place, *length].map(u32::to_be_bytes).concat();
                [&[7][..], &numbers, image].concat()
            }
            Request::Apply { command, image } => {
                [&[8][..], &write_command(command), image].concat()
            }
            Request::Gateway {
                held,
                command,
                first,
                second,
            } => {
                let fixed = [write_metadata(held), write_command(command)].concat();
                [&[9][..], &fixed, &framed(first), second].concat()
            }
            Request::Tag { time, readings } => [&[10][..], &time.to_be_bytes(), readings].concat(),
            Request::ProveJoint(call) => call.write(),
            Request::CheckJoint(call) => call.write(),
            Request::File(call) => call.write(),
            Request::FindPlace(call) => call.write(),
        }
    }

    /// The whole frame.
    pub fn frame(&self) -> Vec<u8> {
        framed(&self.write())
    }

    /// The call's name, with its operation where it has one.
    pub fn name(&self) -> &'static str {
        match self {
            Request::Digest { .. } => "digest",
            Request::Match { .. } => "match",
            Request::Height { .. } => "height",
            Request::Save { .. } => "save",
            Request::Load { .. } => "load",
            Request::Check { .. } => "check",
            Request::Prove { .. } => "prove",
            Request::Apply { command, .. } => match command.operation {
                Operation::Read => "apply Read",
                Operation::Replace => "apply Replace",
                Operation::Insert => "apply Insert",
                Operation::Delete => "apply Delete",
            },
            Request::Gateway { command, .. } => match command.operation {
                Operation::Read => "gateway Read",
                Operation::Replace => "gateway Replace",
                Operation::Insert => "gateway Insert",
                Operation::Delete => "gateway Delete",
            },
            Request::Tag { .. } => "tag",
            Request::ProveJoint(_) => "prove joint",
            Request::CheckJoint(_) => "check joint",
            Request::File(_) => "file",
            Request::FindPlace(_) => "find place",
        }
    }
}

/// Four bytes of length, then the bytes: a frame, and fields within one.
pub fn framed(rest: &[u8]) -> Vec<u8> {
    [&(rest.len() as u32).to_be_bytes()[..], rest].concat()
}

fn write_metadata(metadata: &Metadata) -> Vec<u8> {
    [&metadata.count.to_be_bytes()[..], &metadata.label].concat()
}

fn write_command(command: &Command) -> Vec<u8> {
    let mut out = vec![command.operation as u8];
    out.extend(command.p.to_be_bytes());
    out.push(command.height);
    out.extend(command.tag);
    out
}

/// An answer. Fields that the call does not speak of are zero.
#[derive(Clone, Debug, Default, PartialEq, Eq)]
pub struct Answer {
    pub refusal: u8,
    pub which: u8,
    pub tag: Digest,
    pub metadata: Metadata,
    pub length: u32,
    pub k: u32,
    pub count: u32,
    pub yes: u8,
    pub lent: Vec<u8>,
}

impl Answer {
    /// The whole frame of the answer.
    pub fn frame(&self) -> Vec<u8> {
        let mut out = vec![self.refusal, self.which];
        out.extend(self.tag);
        out.extend(write_metadata(&self.metadata));
        for number in [self.length, self.k, self.count] {
            out.extend(number.to_be_bytes());
        }
        out.push(self.yes);
        out.extend(&self.lent);
        framed(&out)
    }

    /// Reads what follows the four bytes of length; none where too short.
    pub fn read(rest: &[u8]) -> Option<Answer> {
        let mut fields = Fields(rest);
        Some(Answer {
            refusal: fields.byte()?,
            which: fields.byte()?,
            tag: fields.digest()?,
            metadata: fields.metadata()?,
            length: fields.number()?,
            k: fields.number()?,
            count: fields.number()?,
            yes: fields.byte()?,
            lent: fields.rest(),
        })
    }
}
