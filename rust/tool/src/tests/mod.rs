//! Tests of the tool's modules against the library, on seeded random stations.

mod agree;
mod damaged;
mod histories;
mod history;
mod origins;
mod pages;
mod random;
mod spoken_names;
mod versions;
mod windows;
