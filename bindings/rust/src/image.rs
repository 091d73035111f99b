//! An archive image and its proofs, in buffers of their own.

use crate::store;
use crate::{Command, Metadata, Refusal};

/// An image of no block: version 1, the length of the rest in four bytes, n in two.
const EMPTY: [u8; 7] = [1, 0, 0, 0, 2, 0, 0];

/// A record: height and tag.
const RECORD: usize = 33;

/// The longest proof: 77 bytes and 200 entries of 38.
const LONGEST_PROOF: usize = 77 + 38 * 200;

/// No joint proof is longer: a header of 6 bytes, and for each of 32 positions a shared number of 2 (but for the first), 200 entries of 38 and
/// a stop of 74.
const LONGEST_JOINT: usize = 6 + 32 * (2 + 38 * 200 + 74) - 2;

/// An archive image with no spare bytes, which grows and shrinks as blocks come and go: 5, NO ROOM, does not come.
#[derive(Clone, Debug, PartialEq, Eq, Hash)]
pub struct Image {
    bytes: Vec<u8>,
    count: u64,
}

/// A position's proof.
#[derive(Clone, Debug, PartialEq, Eq, Hash)]
pub struct Proof {
    bytes: Vec<u8>,
    entries: usize,
}

/// A joint proof of a set of positions.
#[derive(Clone, Debug, PartialEq, Eq, Hash)]
pub struct JointProof {
    bytes: Vec<u8>,
}

fn size(count: u64) -> usize {
    EMPTY.len() + RECORD * count as usize
}

impl Image {
    /// The empty archive.
    ///
    /// ```
    /// let image = quaythistle::Image::new();
    /// assert_eq!(image.count(), 0);
    /// assert_eq!(image.as_bytes(), [1, 0, 0, 0, 2, 0, 0]);
    /// ```
    pub fn new() -> Image {
        Image {
            bytes: EMPTY.to_vec(),
            count: 0,
        }
    }

    /// The image at the start of a buffer, whose spare bytes are dropped. Refuses with 1.
    ///
    /// ```
    /// use quaythistle::{Image, Refusal};
    /// assert_eq!(Image::from_bytes(vec![1, 0, 0, 0, 2, 0, 0, 99]), Ok(Image::new()));
    /// assert_eq!(Image::from_bytes(vec![2, 0, 0, 0, 2, 0, 0]), Err(Refusal::BadImage));
    /// ```
    pub fn from_bytes(mut bytes: Vec<u8>) -> Result<Image, Refusal> {
        let count = store::check(&bytes)?.count;
        bytes.truncate(size(count));
        Ok(Image { bytes, count })
    }

    /// The image's bytes, 7 + 33n.
    pub fn as_bytes(&self) -> &[u8] {
        &self.bytes
    }

    /// The number of blocks.
    pub fn count(&self) -> u64 {
        self.count
    }

    /// The image's metadata: count and root label, which is worked out from all blocks at each call.
    pub fn metadata(&self) -> Metadata {
        store::check(&self.bytes).expect("an image is sound")
    }

    /// The proof of a position, 0 to n. Refuses with 2, 6, in this order.
    ///
    /// ```
    /// use quaythistle::{Image, Refusal};
    /// let proof = Image::new().prove(0).unwrap();
    /// assert_eq!((proof.as_bytes().len(), proof.entries()), (77, 0));
    /// assert_eq!(Image::new().prove(1), Err(Refusal::BadPosition));
    /// ```
    pub fn prove(&self, position: u64) -> Result<Proof, Refusal> {
        let mut bytes = vec![0; LONGEST_PROOF];
        let proved = store::prove(&self.bytes, position, &mut bytes, 0)?;
        bytes.truncate(proved.length);
        Ok(Proof {
            bytes,
            entries: proved.entries,
        })
    }

    /// The joint proof of a set of positions, each 1 to n and above the one before, at most 32 of them. Refuses with 13, 2, 6, in this order.
    ///
    /// ```
    /// # fn main() -> Result<(), quaythistle::Refusal> {
    /// use quaythistle::{Command, Image, Refusal};
    /// let mut image = Image::new();
    /// for position in 0..4 {
    ///     image.apply(&Command::Insert { position, height: 0, tag: [position as u8; 32] })?;
    /// }
    /// let single: usize = (2..=4).map(|p| image.prove(p).unwrap().as_bytes().len()).sum();
    /// assert_eq!((image.prove_joint(&[2, 3, 4])?.as_bytes().len(), single), (384, 573));
    /// assert_eq!(image.prove_joint(&[]), Err(Refusal::BadSet));
    /// assert_eq!(image.prove_joint(&[4, 5]), Err(Refusal::BadPosition));
    /// # Ok(())
    /// # }
    /// ```
    pub fn prove_joint(&self, positions: &[u64]) -> Result<JointProof, Refusal> {
        let mut bytes = vec![0; LONGEST_JOINT];
        let length = store::prove_joint(&self.bytes, positions, &mut bytes, 0)?;
        bytes.truncate(length);
        Ok(JointProof { bytes })
    }

    /// Applies a command, and answers the new count. Refuses with 2, 3, 4, 14, in this order.
    ///
    /// ```
    /// # fn main() -> Result<(), quaythistle::Refusal> {
    /// use quaythistle::{Command, Image, Refusal};
    /// let mut image = Image::new();
    /// let tag = quaythistle::tag(1_700_000_000, b"readings")?;
    /// assert_eq!(image.apply(&Command::Insert { position: 0, height: 3, tag }), Ok(1));
    /// assert_eq!(image.apply(&Command::Insert { position: 0, height: 16, tag }), Err(Refusal::BadHeight));
    /// assert_eq!(image.apply(&Command::Insert { position: 1, height: 0, tag }), Err(Refusal::Repeated));
    /// assert_eq!(image.apply(&Command::Delete { position: 1 }), Ok(0));
    /// assert_eq!(image, Image::new());
    /// # Ok(())
    /// # }
    /// ```
    pub fn apply(&mut self, command: &Command) -> Result<u64, Refusal> {
        self.bytes.resize(size(self.count) + RECORD, 0);
        let applied = store::apply(&mut self.bytes, command);
        self.count = applied.unwrap_or(self.count);
        self.bytes.truncate(size(self.count));
        applied
    }

    /// For each block, from position 1 on, the number of entries in the path to it, also above 200.
    ///
    /// ```
    /// # fn main() -> Result<(), quaythistle::Refusal> {
    /// use quaythistle::{Command, Image};
    /// let mut image = Image::new();
    /// for height in [0, 2, 0, 1, 2] {
    ///     let position = image.count();
    ///     image.apply(&Command::Insert { position, height, tag: [position as u8; 32] })?;
    /// }
    /// assert_eq!(image.shape(), [2, 3, 4, 3, 2]);
    /// # Ok(())
    /// # }
    /// ```
    pub fn shape(&self) -> Vec<u64> {
        let mut entries = vec![0; self.count as usize];
        store::shape(&self.bytes, &mut entries).expect("an image, and room for each block");
        entries
    }
}

impl Default for Image {
    fn default() -> Image {
        Image::new()
    }
}

impl JointProof {
    /// The joint proof's bytes.
    pub fn as_bytes(&self) -> &[u8] {
        &self.bytes
    }
}

impl Proof {
    /// The proof's bytes, 77 + 38k.
    pub fn as_bytes(&self) -> &[u8] {
        &self.bytes
    }

    /// k, the entries in the path.
    pub fn entries(&self) -> usize {
        self.entries
    }
}
