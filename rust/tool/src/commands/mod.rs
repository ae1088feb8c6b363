//! The commands, one a file.

pub mod adopt;
pub mod ask;
pub mod audit;
pub mod check;
pub mod convert;
pub mod diff;
pub mod held;
pub mod log;
pub mod new;
pub mod refused;
pub mod run;
pub mod show;
pub mod why;
