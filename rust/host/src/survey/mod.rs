//! `egretfold survey`: the conditional test that a stream's settings hold, made at all
//! pairs of a domain, with the conditional buffer in a dump of memory.

mod forms;
mod refused;

use crate::common::failure::{Failure, Outcome};
use crate::common::files::Files;
use crate::common::replaced::{Kind, Replaced};
use crate::decode::settled;
use crate::explain::cause::Refused;
use crate::input::numbers;
use crate::input::source::{self, Source};
use crate::survey::forms::{Names, Survey};
use clap::Args;
use egretfold::{headers, Format, Layout, Session};
use std::io::Write;
use std::path::PathBuf;

/// Printed behind the help text.
pub const EXAMPLES: &str = "\
The settings are those that the stream's words leave, stopped or not. A pair passes where the
test holds between V and b: 0 never, 1 V < b, 2 V <= b, 3 V = b, 4 V >= b, 5 V > b, 6 V <> b,
7 always, and b is the number of 16 bits in the conditional buffer at the pair, low byte first.
At most 65536 bytes are lent; of a longer dump those that hold the domain.

Examples, from the repository's root:
  egretfold survey --stream samples/camera.ctm --memory samples/camera.mem --at 800 --value 300
  egretfold survey --stream samples/camera.ctm --memory samples/camera.mem --at 800 --value 300 --domain 0,0,63,23 --json
  egretfold survey --stream samples/camera.ctm --memory samples/camera.mem --at 800 --value 300 --pgm near.pgm --svg near.svg";

/// The most bytes that the unit is lent, and the most pairs that stand in them.
pub const MOST_BYTES: usize = 65_536;
pub const MOST_PAIRS: u64 = 32_768;

/// The pairs of the largest window: a room for more is asked for nothing.
const LARGEST: u64 = 1 << 24;

#[derive(Args)]
pub struct Options {
    /// The stream of command words whose settings are asked; - for standard input
    #[arg(long, value_name = "FILE")]
    stream: PathBuf,
    /// Only the stream's first N words count
    #[arg(long, value_name = "N", value_parser = numbers::long_count)]
    words: Option<u64>,
    /// The stream is hex text
    #[arg(long)]
    hex: bool,
    /// The dump of memory, its bytes as they stand; - for standard input
    #[arg(long, value_name = "FILE")]
    memory: PathBuf,
    /// The address of the dump's first byte, hex
    #[arg(long, value_name = "ADDRESS", value_parser = numbers::word)]
    at: u32,
    /// The value that is held against the buffer
    #[arg(long, value_name = "V", value_parser = numbers::count, allow_negative_numbers = true)]
    value: u32,
    /// The domain, both ends included; the stream's own where none is given
    #[arg(long, value_name = "I0,J0,I1,J1", value_parser = numbers::four)]
    domain: Option<[u32; 4]>,
    /// One JSON object a row and for the whole, a line each
    #[arg(long)]
    json: bool,
    /// Draw the pairs, white where they pass, into this file; an earlier PGM of ours there is replaced, nothing else
    #[arg(long, value_name = "FILE")]
    pgm: Option<PathBuf>,
    /// Draw the pairs that pass as SVG into this file; an earlier SVG of ours there is replaced, nothing else
    #[arg(long, value_name = "FILE")]
    svg: Option<PathBuf>,
}

/// What is asked: the session's settings, the memory and the domain.
pub struct Asked<'a> {
    pub session: &'a Session,
    pub buffer: Option<Format>,
    pub value: u32,
    pub domain: [u32; 4],
    pub dump: &'a [u8],
    pub at: u32,
}

impl Options {
    /// Names the files of the line.
    pub fn name(&self, files: &mut Files) {
        files.reads("--stream", Some(&self.stream));
        files.reads("--memory", Some(&self.memory));
        files.writes("--pgm", self.pgm.as_deref());
        files.writes("--svg", self.svg.as_deref());
    }
}

pub fn run(options: &Options, files: &mut Files, out: &mut dyn Write) -> Outcome {
    let standard = |file: &PathBuf| source::is_standard(Some(file));
    if standard(&options.stream) && standard(&options.memory) {
        return Err(Failure::wrong(
            "stream and memory can't both be on standard input",
        ));
    }
    let drawings = Drawings::asked(options)?;
    let mut memory = Source::open(Some(&options.memory))?.without_unpacking();
    let name = memory.name.clone();
    let (hex, json) = (options.hex, options.json);
    let settled = settled::read(&options.stream, hex, options.words, json, out)?;
    let session = &settled.session;
    let domain = options.domain.or(session.domain()).ok_or_else(|| {
        let name = &settled.name;
        Failure::Wrong(format!(
            "{name} sets no domain: give one with --domain I0,J0,I1,J1"
        ))
    })?;
    // Memory that ends above 2^32 isn't read to its end.
    let dump = memory.memory(options.at)?;
    let asked = Asked {
        session,
        buffer: session.format(headers::SET_COND_OUT_FMT, 0).ok().flatten(),
        value: options.value,
        domain,
        dump: &dump,
        at: options.at,
    };
    let names = Names {
        stream: &settled.name,
        memory: &name,
    };
    let told = answer(&asked, names, json, (&drawings, files), out);
    let refused = settled.refused.map_or(Ok(()), Err);
    match told {
        Err(Failure::Wrong(_)) => Failure::both(refused, told),
        told => told.and(refused),
    }
}

/// Makes the survey, tells it and draws it; or tells why it is refused.
fn answer(
    asked: &Asked,
    names: Names,
    json: bool,
    (drawings, files): (&Drawings, &mut Files),
    out: &mut dyn Write,
) -> Outcome {
    match made(asked) {
        Ok((passed, room)) => {
            let survey = Survey {
                asked,
                names,
                room,
                passed,
            };
            if json {
                survey.json(out)?;
            } else {
                survey.text(out)?;
            }
            drawings.draw(&survey, files);
            Ok(())
        }
        Err((refused, hint)) => {
            forms::refused(asked, &names, &refused, json, out)?;
            let ([i0, j0, i1, j1], memory) = (asked.domain, names.memory);
            let told = format!("{memory}: survey of ({i0}, {j0}) to ({i1}, {j1}): {refused}");
            Err(Failure::Refused(told).hinted(hint))
        }
    }
}

/// Where the drawings go.
struct Drawings {
    pgm: Option<Replaced>,
    svg: Option<Replaced>,
}

impl Drawings {
    /// Asked for before anything is read.
    fn asked(options: &Options) -> Outcome<Drawings> {
        let place = |file: &Option<PathBuf>, kind| {
            let file = file.as_deref();
            file.map(|file| Replaced::new(file, kind)).transpose()
        };
        Ok(Drawings {
            pgm: place(&options.pgm, Kind::Pgm)?,
            svg: place(&options.svg, Kind::Svg)?,
        })
    }

    fn draw(&self, survey: &Survey, files: &mut Files) {
        if let Some(file) = &self.pgm {
            file.write(survey.pgm(), files);
        }
        if let Some(file) = &self.svg {
            file.write(survey.svg(), files);
        }
    }
}

/// The product's survey: how many pass, and a byte a pair; or its refusal in words,
/// with something to try.
fn made(asked: &Asked) -> Result<(u32, Vec<u8>), (Refused, Option<String>)> {
    let room = asked.pairs().filter(|pairs| *pairs <= LARGEST);
    let mut room = vec![0; room.unwrap_or(0) as usize];
    let (memory, first) = asked.lent();
    let answer = asked
        .session
        .survey(asked.value, asked.domain, memory, first, &mut room);
    match answer {
        Ok(passed) => Ok((passed, room)),
        Err(refusal) => Err(refused::told(refusal, asked)),
    }
}

impl Asked<'_> {
    /// The domain's columns and rows, where it isn't crossed.
    pub fn sides(&self) -> Option<(u64, u64)> {
        let [i0, j0, i1, j1] = self.domain;
        let side = |low: u32, high: u32| high.checked_sub(low).map(|rest| u64::from(rest) + 1);
        Some((side(i0, i1)?, side(j0, j1)?))
    }

    pub fn pairs(&self) -> Option<u64> {
        let (columns, rows) = self.sides()?;
        columns.checked_mul(rows)
    }

    pub fn layout(&self) -> Option<Layout> {
        self.buffer.as_ref().map(crate::common::settings::layout)
    }

    /// The dump, or the part of a long one that holds the domain.
    fn lent(&self) -> (&[u8], u32) {
        let whole = (self.dump, self.at);
        if self.dump.len() <= MOST_BYTES {
            return whole;
        }
        let part = self.held().and_then(|(low, high)| {
            let start = low.checked_sub(self.at)? as usize;
            let bytes = self.dump.get(start..=start + (high - low) as usize)?;
            Some((bytes, low))
        });
        part.unwrap_or(whole)
    }

    /// The first and last byte of the domain's elements, by the product, where it is
    /// inside the buffer's window and has no more pairs than can be lent.
    pub fn held(&self) -> Option<(u32, u32)> {
        let layout = self.layout()?;
        let (columns, _) = self.sides()?;
        self.pairs().filter(|pairs| *pairs <= MOST_PAIRS)?;
        let [i0, j0, _, j1] = self.domain;
        let mut row = vec![0; columns as usize];
        let mut range: Option<(u32, u32)> = None;
        for j in j0..=j1 {
            egretfold::translate_row(&layout, i0, j, &mut row).ok()?;
            for address in &row {
                let (low, high) = range.unwrap_or((*address, *address));
                range = Some((low.min(*address), high.max(address + (layout.size - 1))));
            }
        }
        range
    }
}
