//! Document 01, "Archive image".

use crate::block::GREATEST_HEIGHT;
use crate::bytes;
use crate::metadata::MOST_BLOCKS;
use crate::refusal::Refusal;
use crate::tree::Column;

/// Version, length of the rest in four bytes, n in two.
pub const HEADER: usize = 7;
/// Height and tag.
pub const RECORD: usize = 33;

/// The bytes of an image of n blocks.
pub fn length(n: usize) -> usize {
    HEADER + RECORD * n
}

/// The blocks of the image at the start of the buffer, or 1.
pub fn read(buffer: &[u8]) -> Result<Vec<Column>, Refusal> {
    if buffer.len() < HEADER || buffer[0] != 1 {
        return Err(Refusal::BadImage);
    }
    let rest = bytes::number(&buffer[1..5]);
    let n = bytes::number(&buffer[5..7]);
    if rest != 2 + 33 * n || n > MOST_BLOCKS || buffer.len() < length(n as usize) {
        return Err(Refusal::BadImage);
    }
    let records = buffer[HEADER..length(n as usize)].chunks(RECORD);
    let blocks: Vec<Column> = records.map(read_record).collect();
    match blocks.iter().all(|block| block.height <= GREATEST_HEIGHT) {
        true => Ok(blocks),
        false => Err(Refusal::BadImage),
    }
}

fn read_record(record: &[u8]) -> Column {
    let height = record[0];
    let tag = Some(bytes::digest(&record[1..]));
    Column { height, tag }
}

/// The image of a row of blocks.
pub fn write(blocks: &[Column]) -> Vec<u8> {
    let n = blocks.len();
    let mut out = vec![1];
    out.extend((2 + RECORD as u32 * n as u32).to_be_bytes());
    out.extend((n as u16).to_be_bytes());
    for block in blocks {
        out.push(block.height);
        out.extend(block.tag.unwrap_or_default());
    }
    out
}
