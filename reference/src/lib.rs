//! An independent version of the papers the round store rests on, for comparison.
//!
//! It is written to be read beside them: plain steps, no tables from elsewhere, no speed.

#![forbid(unsafe_code)]

pub mod aes;
pub mod array;
pub mod cmac;
pub mod host;
pub mod tree;
