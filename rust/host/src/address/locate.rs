//! `egretfold locate`: any byte address back to the pair that owns the byte and the
//! byte's place in its element; or, with a stream, to the windows that own it.

use crate::address::layouts::LayoutOptions;
use crate::address::owners;
use crate::address::work::{self, Working};
use crate::common::failure::{Failure, Outcome};
use crate::common::files::Files;
use crate::common::kinds::Address;
use crate::common::schema;
use crate::explain::cause;
use crate::input::lines::Lines;
use crate::input::numbers;
use crate::input::source::{self, Source};
use clap::Args;
use egretfold::Layout;
use serde_json::json;
use std::io::Write;
use std::path::PathBuf;

/// Printed behind the help text.
pub const EXAMPLES: &str = "\
Examples, from the repository's root:
  egretfold locate --pitch 100 --height 20 --size 4 --tiled --work 2664
  egretfold locate --decimal --pitch 100 --height 20 --size 4 --tiled 9828
  egretfold locate --stream samples/several.ctm 4010A4 6010A4";

#[derive(Args)]
pub struct Options {
    #[command(flatten)]
    layout: LayoutOptions,
    /// Addresses, hex; a list on standard input, one a line, where none is given
    #[arg(value_name = "ADDRESS")]
    addresses: Vec<String>,
    /// Asks the windows that this stream of command words sets, instead of one layout
    #[arg(long, value_name = "FILE",
          conflicts_with_all = ["base", "pitch", "height", "size", "tiled", "format", "work"])]
    stream: Option<PathBuf>,
    /// With --stream: only the stream's first N words count
    #[arg(long, value_name = "N", requires = "stream", value_parser = numbers::long_count)]
    words: Option<u64>,
    /// With --stream: the file is hex text
    #[arg(long, requires = "stream")]
    hex: bool,
    /// Shows the working by hand
    #[arg(long)]
    work: bool,
    /// One JSON object an address, a line each
    #[arg(long)]
    json: bool,
}

impl Options {
    /// Names the files of the line.
    pub fn name(&self, files: &mut Files) {
        files.reads("--stream", self.stream.as_deref());
        if self.addresses.is_empty() {
            files.reads_standard();
        }
    }
}

pub fn run(options: &Options, out: &mut dyn Write) -> Outcome {
    if let Some(file) = &options.stream {
        if options.addresses.is_empty() && source::is_standard(Some(file)) {
            return Err(Failure::wrong(
                "stream and addresses can't both be on standard input",
            ));
        }
        let mut read = owners::read(file, options.hex, options.words, options.json, out)?;
        let refused = read.refused.take();
        each(options, None, out, &mut |address, out| {
            owners::answer(&read, address, options.json, out)
        })?;
        return refused.map_or(Ok(()), Err);
    }
    // Beside a layout's options clap doesn't ask for the stream that these require.
    if options.hex || options.words.is_some() {
        return Err(Failure::wrong(
            "--hex and --words tell of a stream: they need --stream FILE",
        ));
    }
    let layout = options.layout.layout()?;
    each(options, Some(&layout), out, &mut |address, out| {
        one(options, &layout, address, out)
    })
}

/// Answers one address; where it is refused, gives what was told.
type Answerer<'a> = dyn FnMut(u32, &mut dyn Write) -> Outcome<Option<String>> + 'a;

/// Answers every address asked, and ends with the first refusal, if there is one.
fn each(
    options: &Options,
    layout: Option<&Layout>,
    out: &mut dyn Write,
    answer: &mut Answerer,
) -> Outcome {
    let mut first = None;
    let refused = |told, text: &str| {
        let hint = layout.and_then(|layout| options.layout.hint(layout, Some(text)));
        Failure::Refused(told).hinted(hint)
    };
    if options.addresses.is_empty() {
        let mut lines = Lines::new(Source::open(None)?);
        while let Some(line) = lines.next()? {
            if !line.is_empty() {
                let address = options
                    .layout
                    .address(&line)
                    .map_err(|text| lines.wrong(&text))?;
                let told = answer(address, out)?;
                first = first.or(told.map(|told| refused(lines.place(&told), &line)));
            }
        }
    }
    for text in &options.addresses {
        let address = options.layout.address(text).map_err(Failure::Wrong)?;
        first = first.or(answer(address, out)?.map(|told| refused(told, text)));
    }
    first.map_or(Ok(()), Err)
}

fn one(
    options: &Options,
    layout: &Layout,
    address: u32,
    out: &mut dyn Write,
) -> Outcome<Option<String>> {
    let at = Address(address);
    match egretfold::locate(layout, address) {
        Ok((x, y, place)) => {
            let work = if options.work {
                Some(working(layout, address, (x, y, place))?)
            } else {
                None
            };
            if options.json {
                let mut value = json!({"address": at.to_string(), "x": x, "y": y, "place": place});
                if let Some(work) = work {
                    value["work"] = work.json();
                }
                schema::line(out, value)?;
            } else {
                writeln!(out, "{at}  ({x}, {y}) place {place}")?;
                work.map_or(Ok(()), |work| work.show(layout, out))?;
            }
            Ok(None)
        }
        Err(refusal) => {
            let refused = cause::refused(refusal, cause::of_address(refusal, layout, address));
            let work = options.work.then(|| work::refused(layout, &refused));
            if options.json {
                let (at, cause) = (at.to_string(), &refused.cause);
                let mut value = json!({"address": at, "refused": refused.number, "cause": cause});
                if let Some(work) = work {
                    value["work"] = work.json();
                }
                schema::line(out, value)?;
            } else {
                writeln!(out, "{at}  {refused}")?;
                work.map_or(Ok(()), |work| work.show(layout, out))?;
            }
            Ok(Some(format!("address {at}: {refused}")))
        }
    }
}

/// The working, once it has come to the product's answer.
fn working(layout: &Layout, address: u32, found: (u32, u32, u32)) -> Outcome<Working> {
    match work::back(layout, address) {
        Some(back) if (back.x, back.y, back.place) == found => Ok(back.lines),
        other => {
            let worked = other.map(|back| (back.x, back.y, back.place));
            let at = Address(address);
            Err(Failure::Wrong(format!(
                "a fault of the program: the working of {at} comes to {worked:?}, \
                 the product to {found:?}"
            )))
        }
    }
}
