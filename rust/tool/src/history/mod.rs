//! The history of a record: a file beside it with the record as it first stood and each change since, from which the record can be
//! made again. `docs/HISTORY.md` describes it.

pub mod batch;
pub mod entries;
pub mod file;
pub mod kept;
pub mod layout;
pub mod make;
pub mod origin;
pub mod past;
pub mod replay;
pub mod seen;
pub mod sums;
pub mod time;
