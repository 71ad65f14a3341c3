//! What the proved library is timed against: the same method as a plain scalar program, and optimised as one does without proofs.

pub mod clock;
mod decisions;
pub mod measures;
pub mod optimised;
pub mod picture;
pub mod plain;
pub mod processor;
mod sites;
pub mod textures;
pub mod versions;
