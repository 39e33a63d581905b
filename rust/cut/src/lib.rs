//! Cuts named items out of Rust files, changes copies of them token by token, and finds the
//! blocks of their functions.
//!
//! It knows just as much of Rust's grammar as that takes.

pub mod blocks;
pub mod cutting;
pub mod edits;
pub mod items;
pub mod sha256;
pub mod tokens;
