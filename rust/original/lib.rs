//! The Rust original as a crate: its own modules, and in place of its solver a reader of the loaded solution.
#![allow(dead_code, unused_imports, clippy::all, rustdoc::all)]
#![forbid(unsafe_code)]

extern crate alloc;

// Not ours to lay out anew.
#[rustfmt::skip]
pub mod board;
pub mod solver;
#[rustfmt::skip]
pub mod sudoku;
