//! Made-up texts and pools, by seed: what the comparisons with the Rust and the tests of the library draw from.

pub mod limits;
pub mod many;
pub mod pools;
pub mod random;
pub mod texts;
