//! The independent implementation: straightforward Rust, written from document 01 and not from the library. What the
//! library's answers are held to, and what its speed is measured beside.

pub mod masked;
pub mod pixels;
pub mod reader;
pub mod replacement;
pub mod sections;
