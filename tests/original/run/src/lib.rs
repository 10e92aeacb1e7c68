//! The original's calls in document 01's words; the line protocol stands on them.
pub mod answers;
pub mod lines;
pub mod run;
mod store;
