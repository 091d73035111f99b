//! Quaythistle: the gateway and the store of an archive of blocks, proved for all inputs.
//!
//! The store keeps an [`Image`] and proves what stands at a position; the gateway keeps only [`Metadata`], a count and a root label, and
//! from a proof it works out the metadata after a [`Command`]. A late block is filed by its time, between its neighbours, whatever place the
//! store proposes: see [`Metadata::file`]. Up to 32 positions are read with one [`JointProof`]. A store that lies is refused, by number: see
//! [`Refusal`]. So is a block filed again right after itself: see [`Refusal::Repeated`].
//!
//! ```
//! # fn main() -> Result<(), quaythistle::Refusal> {
//! use quaythistle::{Command, Image};
//!
//! let mut image = Image::new();
//! let held = image.metadata();
//! let insert = Command::Insert { position: 0, height: 0, tag: quaythistle::tag(1_700_000_000, b"readings")? };
//! let proof = image.prove(0)?;
//! let accepted = held.check(&insert, proof.as_bytes(), &[])?;
//! image.apply(&insert)?;
//! assert_eq!(accepted.metadata, image.metadata());
//! # Ok(())
//! # }
//! ```
//!
//! The proved code is the static library of the C interface, for x86-64 Linux; `build.rs` says how it is found. No call fails in a way that
//! its `Result` does not tell.

mod command;
mod digest;
mod filing;
mod image;
mod metadata;
mod raw;
mod refusal;
pub mod store;

pub use command::Command;
pub use digest::{digest, digest_joined, height, matches, tag, Digest, Label, Tag};
pub use filing::{place, Block, Filing};
pub use image::{Image, JointProof, Proof};
pub use metadata::{Accepted, Metadata};
pub use refusal::{Refusal, Which};
