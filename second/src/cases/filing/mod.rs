//! The calls of the late filer (document 02, ask 5).

pub mod blocks;
pub mod dated;
pub mod edges;
pub mod forged;
pub mod honest;
pub mod lies;
pub mod order;
pub mod outages;
pub mod places;
pub mod proofs;
