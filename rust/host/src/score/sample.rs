//! `egretfold` with no arguments: station 14's month, scored.

use crate::common::failure::{Failure, Outcome};
use crate::input::source::Source;
use crate::score;
use crate::score::asked::{self, LeaseLine};
use crate::score::civil::Date;
use crate::score::station::{DAYS, FIRST_DAY, FROM, OWED};
use std::io::Write;

const LOG: &[u8] = include_bytes!("../../../../samples/station-14.log");
const NAME: &str = "samples/station-14.log";

pub fn run(out: &mut dyn Write) -> Outcome {
    writeln!(
        out,
        "# egretfold score {NAME} --first-day {FIRST_DAY} --days {DAYS} --owed {OWED} --from {FROM}"
    )?;
    let line = LeaseLine {
        first_day: FIRST_DAY,
        days: DAYS,
        owed: OWED,
    };
    let from = Date::parse(FROM).map_err(Failure::Wrong)?;
    let verdict = score::show(Source::of_bytes(NAME, LOG), line, from, out)?;
    writeln!(out)?;
    writeln!(
        out,
        "# egretfold --help tells of the rest; samples/README.md has more to try"
    )?;
    asked::outcome(verdict)
}
