//! What the calls are given: frames, octets, files and damage by chance, large files, and the vectors.

pub mod chance;
pub mod contents;
pub mod damage;
pub mod differences;
pub mod files;
pub mod frames;
pub mod large;
pub mod random;
pub mod vectors;
