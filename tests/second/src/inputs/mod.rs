//! What the comparison asks with: known certificates, random ones, order files.

pub mod accepted;
pub mod dice;
pub mod fitting;
pub mod known;
pub mod makers;
pub mod samples;
pub mod small;
pub mod writer;
