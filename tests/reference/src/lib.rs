//! Document 01, the integrated-gradient Bayer module, with A1, A2 and A4 of document 02, as plain Rust.
//!
//! Each module follows one section of the document and quotes its letters.
//! Whole numbers are kept in 64 or 128 bits, so that no step can overflow.
//! It is written to be read and compared with, not to be fast.

pub mod calls;
pub mod curve;
pub mod frame_file;
pub mod gradients;
pub mod green;
pub mod planes;
pub mod program;
pub mod sites;
pub mod turning;
