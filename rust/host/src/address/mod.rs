//! `egretfold address`: a pair of a window to the address of its element and the run
//! from there on.

pub mod layouts;
pub mod locate;
mod owners;
pub mod tile;
pub mod tiles;
pub mod work;

use crate::address::layouts::LayoutOptions;
use crate::address::work::Working;
use crate::common::failure::{Failure, Outcome};
use crate::common::files::Files;
use crate::common::kinds::Address;
use crate::common::schema;
use crate::explain::cause;
use crate::input::lines::Lines;
use crate::input::numbers;
use crate::input::source::Source;
use clap::Args;
use egretfold::{Layout, Translated};
use serde_json::json;
use std::io::Write;

/// Printed behind the help text.
pub const EXAMPLES: &str = "\
Examples:
  egretfold address --pitch 100 --height 20 --size 4 --tiled --work 37,18
  egretfold address --base 800 --format 2010064 --height 12 0,0 95,11
  seq 0 95 | sed 's/$/,0/' | egretfold address --pitch 100 --height 3 --size 4";

#[derive(Args)]
pub struct Options {
    #[command(flatten)]
    layout: LayoutOptions,
    /// Pairs X,Y; a list on standard input, a pair a line, where none is given
    #[arg(value_name = "X,Y", value_parser = numbers::pair)]
    pairs: Vec<(u32, u32)>,
    /// Shows the working by hand
    #[arg(long)]
    work: bool,
    /// One JSON object a pair, a line each
    #[arg(long)]
    json: bool,
}

impl Options {
    /// Names the file of the line.
    pub fn name(&self, files: &mut Files) {
        if self.pairs.is_empty() {
            files.reads_standard();
        }
    }
}

/// What was told of a refused pair.
type Told = Option<String>;

pub fn run(options: &Options, out: &mut dyn Write) -> Outcome {
    let layout = options.layout.layout()?;
    let mut first = None;
    if options.pairs.is_empty() {
        let mut lines = Lines::new(Source::open(None)?);
        while let Some(line) = lines.next()? {
            if !line.is_empty() {
                let pair = numbers::pair(&line).map_err(|text| lines.wrong(&text))?;
                let told = one(options, &layout, pair, out)?;
                first = first.or(told.map(|told| lines.place(&told)));
            }
        }
    }
    for pair in &options.pairs {
        first = first.or(one(options, &layout, *pair, out)?);
    }
    let hint = || options.layout.hint(&layout, None);
    first.map_or(Ok(()), |told| Err(Failure::Refused(told).hinted(hint())))
}

fn one(
    options: &Options,
    layout: &Layout,
    (x, y): (u32, u32),
    out: &mut dyn Write,
) -> Outcome<Told> {
    match egretfold::translate(layout, x, y) {
        Ok(at) => {
            let work = if options.work {
                Some(working(layout, x, y, at)?)
            } else {
                None
            };
            let Translated { address, run } = at;
            if options.json {
                let shown = Address(address).to_string();
                let mut value = json!({"x": x, "y": y, "address": shown, "run": run});
                if let Some(work) = work {
                    value["work"] = work.json();
                }
                schema::line(out, value)?;
            } else {
                let shown = Address(address);
                writeln!(out, "({x}, {y})  {shown}  {address}  run {run}")?;
                work.map_or(Ok(()), |work| work.show(layout, out))?;
            }
            Ok(None)
        }
        Err(refusal) => {
            let refused = cause::refused(refusal, cause::of_pair(refusal, layout, x, y));
            let work = options.work.then(|| work::refused(layout, &refused));
            if options.json {
                let cause = &refused.cause;
                let mut value = json!({"x": x, "y": y, "refused": refused.number, "cause": cause});
                if let Some(work) = work {
                    value["work"] = work.json();
                }
                schema::line(out, value)?;
            } else {
                writeln!(out, "({x}, {y})  {refused}")?;
                work.map_or(Ok(()), |work| work.show(layout, out))?;
            }
            Ok(Some(format!("pair ({x}, {y}): {refused}")))
        }
    }
}

/// The working, once it has come to the product's answer.
fn working(layout: &Layout, x: u32, y: u32, at: Translated) -> Outcome<Working> {
    let product = (u64::from(at.address), at.run);
    match work::there(layout, x, y) {
        Some(there) if (there.address, there.run) == product => Ok(there.lines),
        other => {
            let worked = other.map(|there| (there.address, there.run));
            Err(Failure::Wrong(format!(
                "a fault of the program: the working of ({x}, {y}) comes to address and run \
                 {worked:X?}, the product to {product:X?}"
            )))
        }
    }
}
