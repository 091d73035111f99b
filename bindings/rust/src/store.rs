//! The store's calls on lent buffers: an image stands at the start of its buffer, and bytes after it are spare. [`Image`](crate::Image)
//! has the same calls on a buffer of its own.

use crate::raw;
use crate::{Command, Metadata, Refusal};

/// A proof that was written: its length in bytes, 77 + 38k, and k, the entries in the path.
#[derive(Clone, Copy, Debug, PartialEq, Eq, Hash)]
pub struct Proved {
    pub length: usize,
    pub entries: usize,
}

/// Checks an image and answers its metadata. Refuses with 1.
///
/// ```
/// use quaythistle::{store, Refusal};
/// assert_eq!(store::check(&[1, 0, 0, 0, 2, 0, 0]).unwrap().count, 0);
/// assert_eq!(store::check(b""), Err(Refusal::BadImage));
/// ```
pub fn check(image: &[u8]) -> Result<Metadata, Refusal> {
    // SAFETY: each pointer and length are those of a slice, and a slice that is written is lent alone.
    let answer = unsafe { raw::qt_store_check(image.as_ptr(), image.len()) };
    answer.verdict.settled(Metadata::shown(answer.metadata))
}

/// Proves a position, 0 to n. The proof begins at the given place in the buffer; other bytes stay. Refuses with 1, 2, 6, 5, in this order.
///
/// ```
/// use quaythistle::{store, Refusal};
/// let mut buffer = [0; 100];
/// let proved = store::prove(&[1, 0, 0, 0, 2, 0, 0], 0, &mut buffer, 20).unwrap();
/// assert_eq!((proved.length, proved.entries), (77, 0));
/// assert_eq!(store::prove(&[1, 0, 0, 0, 2, 0, 0], 0, &mut buffer, 24), Err(Refusal::NoRoom));
/// ```
pub fn prove(
    image: &[u8],
    position: u64,
    buffer: &mut [u8],
    place: usize,
) -> Result<Proved, Refusal> {
    // SAFETY: each pointer and length are those of a slice, and a slice that is written is lent alone.
    let answer = unsafe {
        raw::qt_store_prove(
            image.as_ptr(),
            image.len(),
            position,
            buffer.as_mut_ptr(),
            buffer.len(),
            place as u64,
        )
    };
    answer.verdict.settled(Proved {
        length: answer.length as usize,
        entries: answer.entries as usize,
    })
}

/// Proves a set of positions, each 1 to n and above the one before, at most 32 of them, by one joint proof, and answers its length in bytes.
/// It begins at the given place in the buffer; other bytes stay. Refuses with 1, 13, 2, 6, 5, in this order.
///
/// ```
/// # fn main() -> Result<(), quaythistle::Refusal> {
/// use quaythistle::{store, Command, Image, Refusal};
/// let mut image = Image::new();
/// for position in 0..3 {
///     image.apply(&Command::Insert { position, height: 0, tag: [position as u8; 32] })?;
/// }
/// let mut buffer = [0; 272];
/// assert_eq!(store::prove_joint(image.as_bytes(), &[1, 3], &mut buffer, 2), Ok(270));
/// assert_eq!(store::prove_joint(image.as_bytes(), &[1, 3], &mut buffer, 3), Err(Refusal::NoRoom));
/// assert_eq!(store::prove_joint(image.as_bytes(), &[3, 1], &mut buffer, 0), Err(Refusal::BadSet));
/// # Ok(())
/// # }
/// ```
pub fn prove_joint(
    image: &[u8],
    positions: &[u64],
    buffer: &mut [u8],
    place: usize,
) -> Result<usize, Refusal> {
    // SAFETY: each pointer and length are those of a slice, and a slice that is written is lent alone.
    let answer = unsafe {
        raw::qt_jointstore_prove(
            image.as_ptr(),
            image.len(),
            positions.as_ptr(),
            positions.len(),
            buffer.as_mut_ptr(),
            buffer.len(),
            place as u64,
        )
    };
    answer.verdict.settled(answer.length as usize)
}

/// Applies a command to the image in its buffer, and answers the new count. Refuses with 1, 2, 3, 4, 14, 5, in this order.
///
/// ```
/// # fn main() -> Result<(), quaythistle::Refusal> {
/// use quaythistle::{store, Command, Refusal};
/// let mut buffer = [0; 40];
/// buffer[..7].copy_from_slice(&[1, 0, 0, 0, 2, 0, 0]);
/// let tag = quaythistle::tag(1_700_000_000, b"readings")?;
/// let insert = |position| Command::Insert { position, height: 0, tag };
/// assert_eq!(store::apply(&mut buffer, &insert(0)), Ok(1));
/// assert_eq!(store::apply(&mut buffer, &insert(0)), Err(Refusal::NoRoom));
/// assert_eq!(store::apply(&mut buffer, &insert(1)), Err(Refusal::Repeated));
/// # Ok(())
/// # }
/// ```
pub fn apply(image: &mut [u8], command: &Command) -> Result<u64, Refusal> {
    // SAFETY: each pointer and length are those of a slice, and a slice that is written is lent alone.
    let answer = unsafe { raw::qt_store_apply(image.as_mut_ptr(), image.len(), command.plain()) };
    answer.verdict.settled(answer.count)
}

/// The shape of an archive: answers n, and puts the number of entries in the path to each block (also above 200) at the front of `entries`.
/// Refuses with 1, 5, in this order.
///
/// ```
/// let mut entries = [7; 2];
/// assert_eq!(quaythistle::store::shape(&[1, 0, 0, 0, 2, 0, 0], &mut entries), Ok(0));
/// assert_eq!(entries, [7; 2]);
/// ```
pub fn shape(image: &[u8], entries: &mut [u64]) -> Result<u64, Refusal> {
    // SAFETY: each pointer and length are those of a slice, and a slice that is written is lent alone.
    let answer = unsafe {
        raw::qt_shapes_shape(
            image.as_ptr(),
            image.len(),
            entries.as_mut_ptr(),
            entries.len(),
        )
    };
    answer.verdict.settled(answer.count)
}
