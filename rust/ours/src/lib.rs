//! The calls of libzanthupra.a under the twin's names and arguments.

mod ours;

pub use ours::{audit, close, format, open, set_read_only};
