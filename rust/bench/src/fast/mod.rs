//! Document 01 as a Rust programmer would write it for speed: sessions, logs over midnight, the writer, addresses, elements and
//! flow words, with document 02's loops, kills, conditional tests and whole pictures.
//!
//! Every entry that stands for one call of the product is marked `#[inline(never)]`. A host reaches the product through a
//! call that nothing inlines; without the mark the compiler could melt these entries into the timing loop and move the work
//! on a constant layout out of it, and the two sides would no longer do the same. Nothing else here is held back.

pub mod address;
pub mod command;
pub mod element;
pub mod fleet;
pub mod group;
mod kill;
pub mod layout;
pub mod lessees;
pub mod log;
mod loops;
pub mod picture;
pub mod planes;
pub mod processors;
pub mod program;
pub mod refusal;
pub mod session;
pub mod survey;

#[cfg(test)]
mod worked;

pub use refusal::Answer;
