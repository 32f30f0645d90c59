//! What a user gives: files and standard input, the lines and words in them, and
//! numbers as they are written.

mod archive;
mod later;
pub mod lines;
pub mod looks;
pub mod numbers;
pub mod packed;
pub mod progress;
pub mod source;
pub mod words;
