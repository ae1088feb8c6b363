//! The eleven calls in plain Rust: safe, with no intrinsics, in loops that LLVM turns into vector instructions.

#![forbid(unsafe_code)]

#[path = "../fast/mod.rs"]
mod fast;
mod lanes;

pub use fast::{
    command, first_held, held, run, safety, to_version_1, to_version_2, valid, window_count,
    window_empty, window_put,
};
