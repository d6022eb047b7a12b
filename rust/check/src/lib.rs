//! What the proved library is held to: a second implementation of document 01 and blocks to compare the two on.

pub mod agreement;
pub mod comparison;
pub mod implementation;
pub mod measure;
pub mod repository;
pub mod sample;
pub mod second;
pub mod soak;
pub mod trace;
