//! What several subcommands share: the documents' names, the kinds of number, a
//! session's settings, shapes of text, where an answer goes, and how a subcommand
//! ends.

pub mod digest;
pub mod digits;
pub mod edition;
pub mod failure;
pub mod file;
pub mod files;
pub mod interrupt;
pub mod kinds;
pub mod names;
pub mod output;
pub mod replaced;
pub mod schema;
pub mod settings;
pub mod sheet;
pub mod text;
pub mod visible;
