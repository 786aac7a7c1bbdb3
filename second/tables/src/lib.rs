//! Well-formed tables for the comparison and the benchmark, made from a seed: first the rows, then
//! their instruction numbers.

pub mod chain;
pub mod crossing;
pub mod deep;
pub mod machine;
pub mod names;
pub mod random;
pub mod sources;
pub mod stores;
pub mod wellformed;
