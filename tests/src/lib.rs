//! An implementation of document 01 (the contract, a paper that stands outside this repository) that shares nothing with the proved one, and what the tests need around it.

mod answer;
pub mod compile;
pub mod generate;
#[path = "../../include/antenna.rs"]
pub mod library;
pub mod plain;
pub mod random;
pub mod reference;
pub mod stack;
pub mod suite;
pub mod zeros;

pub use library::Answer;

use std::path::{Path, PathBuf};

/// The repository.
pub fn root() -> PathBuf {
    Path::new(env!("CARGO_MANIFEST_DIR")).join("..")
}

pub type Read = fn(&[u8]) -> Answer;
pub type Write = fn(u32, &[u8], &[u8], &[u8], &mut [u8]) -> Answer;
pub type Report = fn(u32, u32, u16, &[u8], &[u8], &mut [u8]) -> Answer;
pub type Repair = fn(u32, u32, u16, &[u8], &mut [u8]) -> Answer;
pub type Def = fn(&[u8], usize, &[u8], &[u8], &mut [u8]) -> Answer;
