//! The working of an address as an engineer does it by hand. It is reckoned apart
//! from the product, and whoever shows it first holds it against the product's
//! answer.

use crate::address::tiles::{self, Bit, Inside, Tile, TILE_BYTES};
use crate::common::failure::Outcome;
use crate::common::kinds::Address;
use crate::common::text;
use crate::explain::cause::Refused;
use egretfold::Layout;
use serde_json::{json, Value};
use std::io::Write;

/// From a pair to its address and its run.
pub struct There {
    pub address: u64,
    pub run: u32,
    pub lines: Working,
}

/// From an address to its pair and the byte's place in the element.
pub struct Back {
    pub x: u32,
    pub y: u32,
    pub place: u32,
    pub lines: Working,
}

/// The lines of a working: a step's name, on its first line alone, and its text.
#[derive(Default)]
pub struct Working(Vec<(&'static str, String)>);

fn put(lines: &mut Working, name: &'static str, text: String) {
    lines.0.push((name, text));
}

impl Working {
    pub fn show(&self, layout: &Layout, out: &mut dyn Write) -> Outcome {
        writeln!(out, "  layout     {}", text::layout_words(layout))?;
        for (name, text) in &self.0 {
            writeln!(out, "  {name:<9}  {text}")?;
        }
        Ok(())
    }

    /// Each line with its step's name.
    pub fn json(&self) -> Value {
        let mut step = "";
        let line = |(name, text): &(&'static str, String)| {
            step = if name.is_empty() { step } else { name };
            json!({"step": step, "text": text})
        };
        self.0.iter().map(line).collect()
    }
}

/// How the row step comes from the pitch.
fn row_step(lines: &mut Working, layout: &Layout) -> Option<u32> {
    let unit = tiles::unit(layout)?;
    let step = tiles::row_step(layout)?;
    let pitch = layout.pitch;
    let of = if layout.tiled {
        format!("the tile's width, {unit}")
    } else {
        format!("32 / {} = {unit}", layout.size)
    };
    put(
        lines,
        "row step",
        format!("E = {step}: pitch {pitch} cut down to a multiple of {of}"),
    );
    Some(step)
}

/// The working up to a refusal: the row step, the tiles, the window's span and its
/// end, as far as the layout has them, and then why it goes no further.
pub fn refused(layout: &Layout, refused: &Refused) -> Working {
    let mut lines = Working::default();
    window(&mut lines, layout);
    put(
        &mut lines,
        "refused",
        format!("{}: {}", refused.number, refused.cause),
    );
    lines
}

fn window(lines: &mut Working, layout: &Layout) -> Option<()> {
    let step = row_step(lines, layout).filter(|step| *step > 0)?;
    let (height, size) = (layout.height, layout.size);
    let span = tiles::span(layout).filter(|span| *span > 0)?;
    let text = if layout.tiled {
        let tile = tiles::tile_of(size)?;
        let in_row = tiles_in_row(lines, tile, step);
        let rows = span / u64::from(TILE_BYTES) / u64::from(in_row);
        format!("{rows} rows of tiles * {in_row} * {TILE_BYTES} bytes = {span}")
    } else {
        format!("H * E * s = {height} * {step} * {size} bytes = {span}")
    };
    put(lines, "span", text);
    let (base, end) = (Address(layout.base), u64::from(layout.base) + span);
    put(lines, "end", format!("base {base} + {span} = {end:08X}"));
    Some(())
}

/// The working from a pair of an accepted layout to its address.
pub fn there(layout: &Layout, x: u32, y: u32) -> Option<There> {
    let mut lines = Working::default();
    let step = row_step(&mut lines, layout)?;
    let offset = if layout.tiled {
        tiled_there(&mut lines, layout, step, x, y)?
    } else {
        linear_there(&mut lines, layout, step, x, y)
    };
    let address = u64::from(layout.base) + offset;
    let base = Address(layout.base);
    let sum = format!("base {base} + {offset} = {address:08X} = {address}, place 0 of the element");
    put(&mut lines, "address", sum);
    let run = if layout.tiled {
        tiled_run(&mut lines, layout, step, (x, y), address)?
    } else {
        linear_run(&mut lines, step, x)
    };
    Some(There {
        address,
        run,
        lines,
    })
}

/// In a linear window a run goes to the row's end.
fn linear_run(lines: &mut Working, step: u32, x: u32) -> u32 {
    let run = step.saturating_sub(x);
    let text = format!("E - x = {step} - {x} = {run}, up to the row's end");
    put(lines, "run", text);
    run
}

/// In a tiled window the offset's lowest bits are x's, up to the first that is one of y's: so many elements follow each other.
fn tiled_run(
    lines: &mut Working,
    layout: &Layout,
    step: u32,
    (x, y): (u32, u32),
    address: u64,
) -> Option<u32> {
    let tile = tiles::tile_of(layout.size)?;
    let from_x = |bit: &&Inside| matches!(bit, Inside::Zero | Inside::One(Bit::X(_)));
    let low = tile.inside.iter().rev().take_while(from_x).count() as u32;
    let group = (1 << low) / tile.size;
    let stands = match group {
        2 => "x0 stands".to_string(),
        _ => format!("x{} to x0 stand", group.trailing_zeros() - 1),
    };
    put(
        lines,
        "run",
        format!("{stands} below bit {low}, which is y0: elements follow each other in groups of {group}"),
    );
    let run = group - x % group;
    let left = format!("{group} - {x} mod {group} = {run}");
    let next = x + run;
    let ends = if next < step {
        let at =
            u64::from(layout.base) + tiled_there(&mut Working::default(), layout, step, next, y)?;
        let due = address + u64::from(run) * u64::from(layout.size);
        format!("({next}, {y}) is at {at:08X}, not at {due:08X}")
    } else {
        "the row ends there".to_string()
    };
    put(lines, "", format!("{left}: {ends}"));
    Some(run)
}

fn linear_there(lines: &mut Working, layout: &Layout, step: u32, x: u32, y: u32) -> u64 {
    let size = layout.size;
    let elements = u64::from(y) * u64::from(step) + u64::from(x);
    let offset = elements * u64::from(size);
    put(
        lines,
        "element",
        format!("y * E + x = {y} * {step} + {x} = {elements}"),
    );
    put(
        lines,
        "offset",
        format!("{elements} * {size} bytes = {offset}"),
    );
    offset
}

fn tiled_there(lines: &mut Working, layout: &Layout, step: u32, x: u32, y: u32) -> Option<u64> {
    let tile = tiles::tile_of(layout.size)?;
    let in_row = tiles_in_row(lines, tile, step);
    let (width, height) = (tile.width, tile.height);
    let (column, row) = (x / width, y / height);
    let number = u64::from(row) * u64::from(in_row) + u64::from(column);
    let start = number * u64::from(TILE_BYTES);
    put(
        lines,
        "",
        format!("column {x} div {width} = {column}, row {y} div {height} = {row}"),
    );
    put(
        lines,
        "",
        format!("number {row} * {in_row} + {column} = {number}"),
    );
    put(
        lines,
        "",
        format!("begins at {number} * {TILE_BYTES} = {start}"),
    );
    put(
        lines,
        "pair",
        format!("x = {x} = {x:b}, y = {y} = {y:b} in binary"),
    );
    let inside = inside(lines, tile, x, y);
    let offset = start + u64::from(inside);
    put(lines, "offset", format!("{start} + {inside} = {offset}"));
    Some(offset)
}

fn tiles_in_row(lines: &mut Working, tile: &Tile, step: u32) -> u32 {
    let (width, height) = (tile.width, tile.height);
    let in_row = step / width;
    let text =
        format!("{width} x {height} elements, {step} / {width} = {in_row} in a row of tiles");
    put(lines, "tile", text);
    in_row
}

/// The offset inside the tile, bit by bit from bit 10 down.
fn inside(lines: &mut Working, tile: &Tile, x: u32, y: u32) -> u32 {
    let mut offset = 0;
    for (place, inside) in tile.inside.iter().enumerate() {
        let (bit, text) = match inside {
            Inside::Two(a, b) => {
                let (first, second) = (a.of(x, y), b.of(x, y));
                let bit = first ^ second;
                (
                    bit,
                    format!("{} ^ {} = {first} ^ {second} = {bit}", a.name(), b.name()),
                )
            }
            Inside::One(a) => (a.of(x, y), format!("{} = {}", a.name(), a.of(x, y))),
            Inside::Zero => (0, "0".to_string()),
        };
        let name = if place == 0 { "inside" } else { "" };
        put(lines, name, format!("bit {:2}  {text}", 10 - place));
        offset = offset << 1 | bit;
    }
    put(lines, "", format!("together {offset:011b} = {offset}"));
    offset
}

/// The working from an address in an accepted layout's span back to its pair,
/// which may be outside the window where the last tiles reach past its height.
pub fn back(layout: &Layout, address: u32) -> Option<Back> {
    let mut lines = Working::default();
    let step = row_step(&mut lines, layout)?;
    let offset = address.checked_sub(layout.base)?;
    let (at, base) = (Address(address), Address(layout.base));
    put(
        &mut lines,
        "offset",
        format!("{at} - base {base} = {offset}"),
    );
    let (x, y) = if layout.tiled {
        tiled_back(&mut lines, layout, step, offset)?
    } else {
        linear_back(&mut lines, layout, step, offset)?
    };
    let (size, place) = (layout.size, offset % layout.size);
    put(
        &mut lines,
        "place",
        format!("{offset} mod {size} = {place} of the element's bytes"),
    );
    put(&mut lines, "pair", format!("({x}, {y})"));
    Some(Back { x, y, place, lines })
}

fn linear_back(lines: &mut Working, layout: &Layout, step: u32, offset: u32) -> Option<(u32, u32)> {
    let size = layout.size;
    let element = offset / size;
    let (x, y) = (element.checked_rem(step)?, element / step);
    put(
        lines,
        "element",
        format!("{offset} div {size} bytes = {element}"),
    );
    put(
        lines,
        "",
        format!("y = {element} div {step} = {y}, x = {element} mod {step} = {x}"),
    );
    Some((x, y))
}

fn tiled_back(lines: &mut Working, layout: &Layout, step: u32, offset: u32) -> Option<(u32, u32)> {
    let tile = tiles::tile_of(layout.size)?;
    let in_row = tiles_in_row(lines, tile, step);
    let (number, inside) = (offset / TILE_BYTES, offset % TILE_BYTES);
    let (column, row) = (number.checked_rem(in_row)?, number / in_row);
    put(
        lines,
        "",
        format!("number {offset} div {TILE_BYTES} = {number}, inside {inside} = {inside:011b}"),
    );
    put(
        lines,
        "",
        format!("row {number} div {in_row} = {row}, column {number} mod {in_row} = {column}"),
    );
    let (x, y) = (column * tile.width, row * tile.height);
    put(lines, "", format!("its first pair is ({x}, {y})"));
    Some(bits_back(lines, tile, inside, x, y))
}

/// Fills in the pair's bits below the tile's, from bit 10 of the offset down.
fn bits_back(lines: &mut Working, tile: &Tile, inside: u32, mut x: u32, mut y: u32) -> (u32, u32) {
    for (place, rule) in tile.inside.iter().enumerate() {
        let at = 10 - place;
        let bit = inside >> at & 1;
        let (own, value, text) = match rule {
            Inside::Two(a, b) => {
                let known = b.of(x, y);
                let value = bit ^ known;
                (
                    a,
                    value,
                    format!(
                        "{} = {bit} ^ {} = {bit} ^ {known} = {value}",
                        a.name(),
                        b.name()
                    ),
                )
            }
            Inside::One(a) => (a, bit, format!("{} = {bit}", a.name())),
            Inside::Zero => {
                put(lines, "", format!("bit {at:2}  {bit}, of the place"));
                continue;
            }
        };
        match own {
            Bit::X(n) => x |= value << n,
            Bit::Y(n) => y |= value << n,
        }
        let name = if place == 0 { "inside" } else { "" };
        put(lines, name, format!("bit {at:2}  {text}"));
    }
    (x, y)
}
