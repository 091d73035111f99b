//! Whole inputs that end in a bad frame, or that end well at an edge.

use super::archive::{command, five};
use super::filing::dated::{late, rising};
use crate::command::Operation;
use crate::frames::{framed, Request};

/// An input and what it shows.
pub struct Stream {
    pub name: String,
    pub input: Vec<u8>,
}

/// Two good calls, so that there is something to answer before the end.
fn good() -> Vec<u8> {
    let digest = Request::Digest {
        message: b"abc".to_vec(),
    };
    let read = five().gateway(command(Operation::Read, 3, 0, [0; 32]));
    [digest.frame(), read.frame()].concat()
}

/// A frame with its call byte and this many bytes of fields.
fn with_fields(call: u8, fields: usize) -> Vec<u8> {
    let mut rest = vec![call];
    rest.resize(1 + fields, 0);
    framed(&rest)
}

/// Every call with its fields one byte short, and with the fewest there are.
fn fewest_fields() -> [(u8, usize); 14] {
    [
        (1, 0),
        (2, 36),
        (3, 2),
        (4, 36),
        (5, 0),
        (6, 0),
        (7, 12),
        (8, 38),
        (9, 78),
        (10, 4),
        (11, 9),
        (12, 37),
        (13, 69),
        (14, 8),
    ]
}

/// What may stand at the end of an input.
fn ends() -> Vec<(String, Vec<u8>)> {
    let mut all: Vec<(String, Vec<u8>)> = Vec::new();
    let mut add = |name: &str, end: Vec<u8>| all.push((name.to_string(), end));
    add("nothing more", Vec::new());
    add("one byte of a length", vec![0]);
    add("three bytes of a length", vec![0, 0, 1]);
    add("a length and nothing", vec![0, 0, 0, 9]);
    add("a frame without a call", vec![0, 0, 0, 0]);
    add("call 0", with_fields(0, 100));
    add("call 15", with_fields(15, 100));
    add("call 200", with_fields(200, 100));
    add("call 255", with_fields(255, 100));
    add("the longest length", vec![255; 400]);
    add("a frame far too long", with_fields(6, 300_000));
    add("a long frame", with_fields(6, 199_000));
    for (call, fields) in fewest_fields() {
        add(&format!("call {call}, fewest"), with_fields(call, fields));
        if fields > 0 {
            let short = with_fields(call, fields - 1);
            add(&format!("call {call}, short"), short);
        }
    }
    add("call 2, a tag and no time", with_fields(2, 32));
    all.extend(bad_fields());
    all.extend(joint_fields());
    all.extend(file_cut_short());
    all.extend(file_lengths());
    all.extend(numbers_of_times());
    all
}

/// A frame with these values among its fields.
fn set(call: u8, fields: usize, at: usize, values: &[u8]) -> Vec<u8> {
    let mut frame = with_fields(call, fields);
    frame[5 + at..5 + at + values.len()].copy_from_slice(values);
    frame
}

/// Joint calls: positions cut short, a buffer too long, a frame too long.
fn joint_fields() -> Vec<(String, Vec<u8>)> {
    let mut all: Vec<(String, Vec<u8>)> = Vec::new();
    for (call, at, after) in [(11, 0, 8), (12, 36, 0)] {
        for number in [1, 32, 255] {
            let whole = at + 1 + 4 * usize::from(number) + after;
            for fields in [whole, whole - 1, whole - 4, at + 1] {
                let name = format!("call {call}, {number} positions in {fields} bytes");
                all.push((name, set(call, fields, at, &[number])));
            }
        }
    }
    for length in [16_385u32, 262_144, 262_145, 1 << 31, u32::MAX] {
        let name = format!("a joint proof buffer of {length}");
        all.push((name, set(11, 30, 5, &length.to_be_bytes())));
    }
    for (call, fields) in [(11, 199_999), (12, 199_999), (11, 200_000), (12, 200_000)] {
        let name = format!("call {call} with {fields} bytes of fields");
        all.push((name, with_fields(call, fields)));
    }
    all
}

/// The fields of an honest filing one after the other, the second proof apart.
fn file_fields() -> (Vec<Vec<u8>>, Vec<u8>) {
    let row = rising();
    let call = row.file(&row.archive(), 3, 1, &late(3));
    let number = |n: u32| n.to_be_bytes().to_vec();
    let mut fields = vec![number(call.held.count), call.held.label.to_vec()];
    fields.extend([number(call.p), vec![call.height]]);
    for sent in [call.new, call.left, call.right] {
        let length = number(sent.readings.len() as u32);
        fields.extend([number(sent.time), length, sent.readings]);
    }
    fields.extend([number(call.first.len() as u32), call.first]);
    (fields, call.second)
}

/// A filing that ends with each of its fields, and one byte before that.
fn file_cut_short() -> Vec<(String, Vec<u8>)> {
    let mut all: Vec<(String, Vec<u8>)> = Vec::new();
    let (fields, second) = file_fields();
    let mut rest = vec![13];
    for field in fields {
        rest.extend(field);
        let length = rest.len();
        for cut in [length - 1, length] {
            let name = format!("a filing cut after {cut} bytes");
            all.push((name, framed(&rest[..cut])));
        }
    }
    rest.extend(second);
    all.push(("a whole filing".to_string(), framed(&rest)));
    all
}

/// A filing with one of its four lengths set so that what follows is taken
/// whole, or that it runs past the frame.
fn file_lengths() -> Vec<(String, Vec<u8>)> {
    let mut all: Vec<(String, Vec<u8>)> = Vec::new();
    let (fields, second) = file_fields();
    for at in [5, 8, 11, 13] {
        let later = fields[at + 1..].iter().map(Vec::len).sum::<usize>();
        let left = (later + second.len()) as u32;
        for length in [left, left + 1, 1 << 31, u32::MAX] {
            let mut changed = fields.clone();
            changed[at] = length.to_be_bytes().to_vec();
            let rest = [&[13], &changed.concat()[..], &second].concat();
            let name = format!("a filing with length {length} in field {at}");
            all.push((name, framed(&rest)));
        }
    }
    all
}

/// Times cut short, bytes after the new time, numbers that no frame holds, and
/// a frame as long as it may be.
fn numbers_of_times() -> Vec<(String, Vec<u8>)> {
    let mut all: Vec<(String, Vec<u8>)> = Vec::new();
    let mut add = |number: u32, fields: usize| {
        let name = format!("{number} times in {fields} bytes");
        all.push((name, set(14, fields, 0, &number.to_be_bytes())));
    };
    for number in [0, 1, 3, 4096] {
        let whole = 8 + 4 * number as usize;
        for fields in [whole - 4, whole - 1, whole, whole + 1, whole + 1000] {
            add(number, fields);
        }
    }
    for number in [8, 1 << 30, (1 << 30) + 1, 1 << 31, u32::MAX - 1, u32::MAX] {
        add(number, 30);
    }
    for (number, fields) in [(49_997, 199_999), (49_998, 199_999), (49_998, 200_000)] {
        add(number, fields);
    }
    all
}

/// Fields that make a frame malformed, each a step from one that does not.
fn bad_fields() -> Vec<(String, Vec<u8>)> {
    let mut all: Vec<(String, Vec<u8>)> = Vec::new();
    for (call, at) in [(8, 0), (9, 36)] {
        for operation in [3, 4, 255] {
            let name = format!("call {call}, operation {operation}");
            all.push((name, set(call, 90, at, &[operation])));
        }
    }
    for length in [16_384u32, 16_385, 1 << 31, u32::MAX] {
        let name = format!("a proof buffer of {length}");
        all.push((name, set(7, 30, 8, &length.to_be_bytes())));
    }
    for length in [11u32, 12, 13, 1 << 31, u32::MAX] {
        let name = format!("a first proof of {length} in 12 bytes");
        all.push((name, set(9, 90, 74, &length.to_be_bytes())));
    }
    all
}

/// Each end after nothing and after good calls; and good calls cut short.
pub fn streams() -> Vec<Stream> {
    let mut all = Vec::new();
    for (name, end) in ends() {
        let alone = format!("{name}, alone");
        all.push(Stream {
            name: alone,
            input: end.clone(),
        });
        all.push(Stream {
            name: format!("{name}, after good calls"),
            input: [good(), end.clone()].concat(),
        });
    }
    let whole = good();
    for cut in [5, whole.len() - 1, whole.len() - 40] {
        all.push(Stream {
            name: format!("cut after {cut} bytes"),
            input: whole[..cut].to_vec(),
        });
    }
    all
}
