//! The gateway: metadata, saved and loaded, the checks of a command and of a joint proof, and the filing of a late block.

use crate::raw;
use crate::{Command, Filing, Label, Refusal, Tag};

/// What the gateway holds of an archive: its count and its root label.
#[derive(Clone, Copy, Debug, PartialEq, Eq, Hash)]
pub struct Metadata {
    pub count: u64,
    pub label: Label,
}

/// What the gateway answers to a command or a filing that it accepts.
#[derive(Clone, Copy, Debug, PartialEq, Eq, Hash)]
pub struct Accepted {
    /// The tag at p before the edit, 32 zero bytes for p = 0; Delete so reports the tag removed.
    pub tag: Tag,
    /// The new metadata, worked out from the proofs.
    pub metadata: Metadata,
}

impl Accepted {
    fn settled(answer: raw::Answer) -> Result<Accepted, Refusal> {
        answer.verdict.settled(Accepted {
            tag: answer.tag.bytes,
            metadata: Metadata::shown(answer.metadata),
        })
    }
}

impl Metadata {
    /// The metadata as 39 bytes; a count over 4,096 is refused with 12.
    ///
    /// ```
    /// # fn main() -> Result<(), quaythistle::Refusal> {
    /// use quaythistle::{Image, Metadata, Refusal};
    /// let held = Image::new().metadata();
    /// assert_eq!(Metadata::load(&held.save()?)?, held);
    /// let over = Metadata { count: 4097, ..held };
    /// assert_eq!(over.save(), Err(Refusal::BadMetadata));
    /// # Ok(())
    /// # }
    /// ```
    pub fn save(&self) -> Result<[u8; 39], Refusal> {
        // SAFETY: the call takes every count and label.
        let answer = unsafe { raw::qt_gateway_save(self.plain()) };
        answer.verdict.settled(answer.bytes)
    }

    /// The metadata saved in exactly 39 bytes; any others are refused with 12.
    ///
    /// ```
    /// use quaythistle::{Metadata, Refusal};
    /// assert_eq!(Metadata::load(&[0; 39]), Err(Refusal::BadMetadata));
    /// ```
    pub fn load(saved: &[u8]) -> Result<Metadata, Refusal> {
        // SAFETY: each pointer and length are those of a slice, and a slice that is written is lent alone.
        let answer = unsafe { raw::qt_gateway_load(saved.as_ptr(), saved.len()) };
        answer.verdict.settled(Metadata::shown(answer.metadata))
    }

    /// The gateway's check of a command, with the bytes of its first proof and, for Delete, of its second. Refuses with 12, 2, 3, 4, then
    /// 7, 8, 9 on the first proof; then Insert with 14, and Delete with 7, 8, 9 on the second and 10; in this order.
    ///
    /// ```
    /// # fn main() -> Result<(), quaythistle::Refusal> {
    /// use quaythistle::{Command, Image, Refusal, Which};
    /// let mut image = Image::new();
    /// let held = image.metadata();
    /// let tag = quaythistle::tag(1_700_000_000, b"readings")?;
    /// let insert = |position| Command::Insert { position, height: 1, tag };
    /// let accepted = held.check(&insert(0), image.prove(0)?.as_bytes(), &[])?;
    /// image.apply(&insert(0))?;
    /// assert_eq!(accepted.metadata, image.metadata());
    /// assert_eq!(held.check(&insert(0), b"no proof", &[]), Err(Refusal::BadProof(Which::First)));
    /// let again = accepted.metadata.check(&insert(1), image.prove(1)?.as_bytes(), &[]);
    /// assert_eq!(again, Err(Refusal::Repeated));
    /// # Ok(())
    /// # }
    /// ```
    pub fn check(
        &self,
        command: &Command,
        first: &[u8],
        second: &[u8],
    ) -> Result<Accepted, Refusal> {
        // SAFETY: each pointer and length are those of a slice, and a slice that is written is lent alone.
        let answer = unsafe {
            raw::qt_gateway_check(
                self.plain(),
                command.plain(),
                first.as_ptr(),
                first.len(),
                second.as_ptr(),
                second.len(),
            )
        };
        Accepted::settled(answer)
    }

    /// The gateway's filing of a late block by its time: Insert after p of the block's tag, with the blocks at p and at p + 1 and the bytes of
    /// their proofs. The left block is needed where p is at least 1, the right one and the second proof where p is less than the count held;
    /// what is not needed is not looked at. Accepted exactly when neither the new block nor a needed one is too long, Insert's check and the
    /// second proof pass, each needed block matches the tag that its proof shows, and the left time is at or before the new one, which is
    /// before the right one. So whoever proposes the place: where the times of an archive never fell, they do not fall after a filing, or two
    /// different messages of equal digest exist. The answer is Insert's; the store then applies [`Filing::insert`] and puts the time into its
    /// times behind the first p.
    ///
    /// Refuses with 11 for the new block, then for a needed one; 12, 2, 3, 4, then 7, 8, 9 on the first proof; 14; 7, 8, 9 on the second; 16;
    /// 15; in this order.
    ///
    /// ```
    /// # fn main() -> Result<(), quaythistle::Refusal> {
    /// use quaythistle::{place, Block, Command, Filing, Image, Refusal};
    /// let evening = Block { time: 1_700_071_200, readings: b"evening" };
    /// let mut image = Image::new();
    /// image.apply(&Command::Insert { position: 0, height: 0, tag: evening.tag()? })?;
    /// let (held, mut times) = (image.metadata(), vec![evening.time]);
    ///
    /// let noon = Block { time: 1_700_049_600, readings: b"noon" }; // comes late
    /// let position = place(&times, noon.time);
    /// let filing = Filing { position, height: 1, block: noon, left: Block::default(), right: evening };
    /// let (first, second) = (image.prove(position)?, image.prove(position + 1)?);
    /// let accepted = held.file(&filing, first.as_bytes(), second.as_bytes())?;
    ///
    /// let after = Block { time: evening.time, ..noon };
    /// let refused = held.file(&Filing { block: after, ..filing }, first.as_bytes(), second.as_bytes());
    /// assert_eq!(refused, Err(Refusal::OutOfTime));
    /// let moved = Block { time: evening.time + 1, ..evening };
    /// let refused = held.file(&Filing { right: moved, ..filing }, first.as_bytes(), second.as_bytes());
    /// assert_eq!(refused, Err(Refusal::WrongBlock));
    ///
    /// image.apply(&filing.insert()?)?;
    /// times.insert(position as usize, noon.time);
    /// assert_eq!((accepted.metadata, times), (image.metadata(), vec![noon.time, evening.time]));
    /// # Ok(())
    /// # }
    /// ```
    pub fn file(
        &self,
        filing: &Filing<'_>,
        first: &[u8],
        second: &[u8],
    ) -> Result<Accepted, Refusal> {
        let (block, left, right) = (
            filing.block.readings,
            filing.left.readings,
            filing.right.readings,
        );
        // SAFETY: each pointer and length are those of a slice, and a slice that is written is lent alone.
        let answer = unsafe {
            raw::qt_filer_file(
                self.plain(),
                filing.plain(),
                block.as_ptr(),
                block.len(),
                left.as_ptr(),
                left.len(),
                right.as_ptr(),
                right.len(),
                first.as_ptr(),
                first.len(),
                second.as_ptr(),
                second.len(),
            )
        };
        Accepted::settled(answer)
    }

    /// The gateway's check of a joint proof of these positions: the tags at them, in their order. It is accepted exactly when it has the
    /// stated form and Read of each position accepts its proof, spelled out. Refuses with 12, 13, 2, then 7 with place 0 for the joint
    /// proof's form, then 7, 8, 9 of the first proof with place 1, the same of the second with place 2, and so on, in this order.
    ///
    /// ```
    /// # fn main() -> Result<(), quaythistle::Refusal> {
    /// use quaythistle::{Command, Image, Refusal, Which};
    /// let mut image = Image::new();
    /// for (position, height) in [(0, 1), (1, 0), (2, 3)] {
    ///     image.apply(&Command::Insert { position, height, tag: [position as u8; 32] })?;
    /// }
    /// let held = image.metadata();
    /// let mut proof = image.prove_joint(&[1, 3])?.as_bytes().to_vec();
    /// assert_eq!(held.check_joint(&[1, 3], &proof), Ok(vec![[0; 32], [2; 32]]));
    /// assert_eq!(held.check_joint(&[1, 2], &proof), Err(Refusal::WrongPosition(Which::Place(2))));
    /// assert_eq!(held.check_joint(&[3, 1], &proof), Err(Refusal::BadSet));
    /// proof.pop();
    /// assert_eq!(held.check_joint(&[1, 3], &proof), Err(Refusal::BadProof(Which::Place(0))));
    /// # Ok(())
    /// # }
    /// ```
    pub fn check_joint(&self, positions: &[u64], proof: &[u8]) -> Result<Vec<Tag>, Refusal> {
        // SAFETY: each pointer and length are those of a slice, and a slice that is written is lent alone.
        let answer = unsafe {
            raw::qt_jointgateway_check(
                self.plain(),
                positions.as_ptr(),
                positions.len(),
                proof.as_ptr(),
                proof.len(),
            )
        };
        let tags = &answer.tags[..answer.number as usize];
        let tags = tags.iter().map(|tag| tag.bytes).collect();
        answer.verdict.settled_at_place(tags)
    }

    fn plain(&self) -> raw::Metadata {
        raw::Metadata {
            count: self.count,
            label: raw::Digest { bytes: self.label },
        }
    }

    pub(crate) fn shown(metadata: raw::Metadata) -> Metadata {
        Metadata {
            count: metadata.count,
            label: metadata.label.bytes,
        }
    }
}
