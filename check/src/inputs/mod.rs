//! Inputs for the comparison, good and damaged, from a fixed seed.

pub mod drives;
pub mod images;
pub mod lists;
pub mod messages;
pub mod random;
