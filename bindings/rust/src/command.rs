//! Commands.

use crate::raw;
use crate::Tag;

/// A command on an archive of n blocks.
#[derive(Clone, Copy, Debug, PartialEq, Eq, Hash)]
pub enum Command {
    /// Read p, 1 to n: reports the tag, metadata stays.
    Read { position: u64 },
    /// Replace p, 1 to n, by a tag; the height stays.
    Replace { position: u64, tag: Tag },
    /// Insert after p, 0 to n, a tag with a height, 0 to 15; for p at least 1 not the tag at p.
    Insert { position: u64, height: u8, tag: Tag },
    /// Delete p, 1 to n: two proofs, first for p - 1, second for p.
    Delete { position: u64 },
}

impl Command {
    pub(crate) fn plain(&self) -> raw::Command {
        let (operation, position, height, tag) = match *self {
            Command::Read { position } => (0, position, 0, [0; 32]),
            Command::Replace { position, tag } => (1, position, 0, tag),
            Command::Insert {
                position,
                height,
                tag,
            } => (2, position, height, tag),
            Command::Delete { position } => (3, position, 0, [0; 32]),
        };
        raw::Command {
            operation,
            height: height.into(),
            position,
            tag: raw::Digest { bytes: tag },
        }
    }
}
