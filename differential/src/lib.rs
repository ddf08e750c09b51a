//! The proved library behind safe wrappers.

pub mod measure;
pub mod proved;
pub mod vectors;
