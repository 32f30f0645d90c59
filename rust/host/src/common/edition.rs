//! The edition of the lease rule, as a line names it and as the forms show it.

use crate::common::failure::Failure;
use crate::explain::cause::{self, Refused};
use crate::input::numbers;
use clap::Args;
use egretfold::Edition;

// Named otherwise than the subcommand's own options: clap takes the name for a group
// of arguments, and each must be unique in a line.
#[derive(Args)]
pub struct EditionOption {
    /// The edition of the lease rule that elements are claimed by: in edition 1 a pair counts 1 for each output that
    /// isn't silent, in edition 2 the unmasked channels of each output
    #[arg(long = "edition", value_name = "E", default_value_t = 1, value_parser = numbers::count, allow_negative_numbers = true)]
    pub number: u32,
}

impl EditionOption {
    pub fn accepted(&self) -> Result<Edition, Refused> {
        accepted(self.number)
    }
}

/// The edition of this number, or 3, which comes before all else.
pub fn accepted(number: u32) -> Result<Edition, Refused> {
    Edition::of(number).map_err(|refusal| {
        let cause = format!("edition {number} is neither 1 nor 2");
        cause::refused(refusal, Some(cause))
    })
}

/// What is told of an edition that was refused.
pub fn refused(refused: Refused) -> Failure {
    Failure::Refused(format!("edition: {refused}"))
}

/// An edition with its rule.
pub fn rule(edition: Edition) -> &'static str {
    match edition {
        Edition::First => {
            "edition 1 of the lease rule: a pair counts 1 for each output that isn't silent"
        }
        Edition::Second => {
            "edition 2 of the lease rule: a pair counts the unmasked channels of each output"
        }
    }
}
