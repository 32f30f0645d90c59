//! `egretfold completions SHELL`: what a shell completes, by the command line's own
//! description, so that the two can't differ.

use crate::common::failure::Outcome;
use clap::Args;
use clap_complete::{generate, Shell};
use std::io::Write;

/// Printed behind the help text.
pub const EXAMPLES: &str = "\
Examples:
  egretfold completions bash >egretfold.bash
  egretfold completions zsh >_egretfold";

#[derive(Args)]
pub struct Options {
    /// The shell
    #[arg(value_enum)]
    shell: Shell,
}

pub fn run(options: &Options, mut line: clap::Command, out: &mut dyn Write) -> Outcome {
    // Into memory first: the maker of completions would panic where it can't write.
    let mut text = Vec::new();
    generate(options.shell, &mut line, "egretfold", &mut text);
    out.write_all(&text)?;
    Ok(())
}
