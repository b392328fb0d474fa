//! The Rust reader as an oracle: what it answers, in the packed forms of document 01, and what document 01
//! says of trees, models, the check, the outline and the day sheet, written from the paper.

pub mod bench;
pub mod bits;
pub mod check;
pub mod duration;
pub mod exception;
pub mod generate;
pub mod hex;
pub mod leaf;
pub mod model;
pub mod number;
pub mod outline;
pub mod read;
pub mod rng;
pub mod rule;
pub mod selftest;
pub mod sheet;
pub mod tasks;
pub mod tree;

/// A refusal's number in document 01's table.
pub type Refusal = u32;
