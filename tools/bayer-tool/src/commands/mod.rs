//! One file for each command.

pub mod facts;
pub mod frame;
pub mod show;
pub mod turned;
