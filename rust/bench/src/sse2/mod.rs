//! The eleven calls with vector instructions written by hand, else the same source as plain Rust.

#[path = "../fast/mod.rs"]
mod fast;
mod lanes;

pub use fast::{
    command, first_held, held, run, safety, to_version_1, to_version_2, valid, window_count,
    window_empty, window_put,
};
