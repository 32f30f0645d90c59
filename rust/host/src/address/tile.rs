//! `egretfold tile`: a tile drawn, block by block, so that an address can be followed with a finger. Every number is the product's.

use crate::address::tiles::{tile_of, Tile, TILE_BYTES};
use crate::common::failure::{Failure, Outcome};
use crate::common::schema;
use crate::input::numbers;
use clap::Args;
use egretfold::Layout;
use serde_json::{json, Value};
use std::io::Write;

/// A tile of any size is 8 by 8 blocks of this many bytes.
const BLOCK_BYTES: u32 = 32;
const BLOCKS: u32 = 8;

/// Printed behind the help text.
pub const EXAMPLES: &str = "\
Examples:
  egretfold tile --size 4 --column 1 --row 1
  egretfold tile --size 4 --mark 37,18
  egretfold tile --size 16 --json";

/// Elements at consecutive addresses: the first column, how many, and the byte at which they begin.
type Run = (u32, u32, u32);

#[derive(Args)]
pub struct Options {
    /// Bytes of an element: 1, 2, 4, 8 or 16
    #[arg(long, value_name = "N", value_parser = numbers::count)]
    size: u32,
    /// The tile's column among the window's tiles
    #[arg(long, value_name = "N", default_value = "0", value_parser = numbers::count)]
    column: u32,
    /// The tile's row among the window's tiles
    #[arg(long, value_name = "N", default_value = "0", value_parser = numbers::count)]
    row: u32,
    /// The tile that holds this pair, with its block and its element in brackets
    #[arg(long, value_name = "X,Y", value_parser = numbers::pair, conflicts_with_all = ["column", "row"])]
    mark: Option<(u32, u32)>,
    /// One JSON object
    #[arg(long)]
    json: bool,
}

/// The tile that is drawn.
struct Drawn {
    tile: &'static Tile,
    column: u32,
    row: u32,
    mark: Option<(u32, u32)>,
}

pub fn run(options: &Options, out: &mut dyn Write) -> Outcome {
    let size = options.size;
    let tile = tile_of(size).ok_or(Failure::Wrong(format!(
        "size {size}: an element has 1, 2, 4, 8 or 16 bytes"
    )))?;
    let (column, row) = match options.mark {
        Some((x, y)) => (x / tile.width, y / tile.height),
        None => (options.column, options.row),
    };
    let mark = options.mark;
    let drawn = Drawn {
        tile,
        column,
        row,
        mark,
    };
    // Asked first, so that a tile that no window has is not begun. From here on nothing wraps.
    drawn.inside(
        column.saturating_mul(tile.width),
        row.saturating_mul(tile.height),
    )?;
    if options.json {
        schema::line(out, drawn.json()?)?;
        return Ok(());
    }
    let (wide, high) = drawn.block();
    writeln!(
        out,
        "size {size}: a tile has {} x {} elements, {BLOCKS} x {BLOCKS} blocks of {wide} x {high} elements, {BLOCK_BYTES} bytes each",
        tile.width, tile.height
    )?;
    drawn.blocks(out)?;
    drawn.elements(out)?;
    drawn.runs(out)?;
    drawn.show_mark(out)
}

impl Drawn {
    /// A block's elements, across and down.
    fn block(&self) -> (u32, u32) {
        (self.tile.width / BLOCKS, self.tile.height / BLOCKS)
    }

    /// The tile's first pair.
    fn first(&self) -> (u32, u32) {
        (self.column * self.tile.width, self.row * self.tile.height)
    }

    /// The number of each block: its place in the tile, counted in blocks.
    fn block_numbers(&self) -> Outcome<Vec<Vec<u32>>> {
        let ((left, top), (wide, high)) = (self.first(), self.block());
        let number = |x, y| Ok(self.inside(x, y)? / BLOCK_BYTES);
        let row = |down| {
            (0..BLOCKS)
                .map(|block| number(left + block * wide, top + down * high))
                .collect()
        };
        (0..BLOCKS).map(row).collect()
    }

    /// The byte at which each element of the tile's first block begins, as in every block.
    fn element_bytes(&self) -> Outcome<Vec<Vec<u32>>> {
        let ((left, top), (wide, high)) = (self.first(), self.block());
        let byte = |x, y| Ok(self.inside(x, y)? % BLOCK_BYTES);
        let row = |down| {
            (0..wide)
                .map(|across| byte(left + across, top + down))
                .collect()
        };
        (0..high).map(row).collect()
    }

    fn blocks(&self, out: &mut dyn Write) -> Outcome {
        let ((left, top), (wide, high)) = (self.first(), self.block());
        let (column, row) = (self.column, self.row);
        writeln!(
            out,
            "\ntile in column {column}, row {row}: each block's place, in {BLOCK_BYTES} bytes\n"
        )?;
        write!(out, "   y \\ x")?;
        for block in 0..BLOCKS {
            write!(out, "{:>6}", left + block * wide)?;
        }
        writeln!(out)?;
        let marked = self
            .mark
            .map(|(x, y)| ((x - left) / wide, (y - top) / high));
        for (down, numbers) in (0..).zip(self.block_numbers()?) {
            write!(out, "{:>8}", top + down * high)?;
            show_row(&numbers, down, marked, out)?;
        }
        Ok(())
    }

    fn elements(&self, out: &mut dyn Write) -> Outcome {
        let (wide, high) = self.block();
        writeln!(out, "\nin a block: the byte at which each element begins\n")?;
        let marked = self.mark.map(|(x, y)| (x % wide, y % high));
        for (down, bytes) in (0..).zip(self.element_bytes()?) {
            write!(out, "        ")?;
            show_row(&bytes, down, marked, out)?;
        }
        Ok(())
    }

    /// The runs of the tile's first row, or of the marked one.
    fn row_runs(&self) -> Outcome<(u32, Vec<Run>)> {
        let (left, top) = self.first();
        let row = self.mark.map_or(top, |(_, y)| y);
        let mut runs = Vec::new();
        let mut x = left;
        while x < left + self.tile.width {
            let (byte, run) = self.place(x, row)?;
            runs.push((x, run, byte));
            x += run;
        }
        Ok((row, runs))
    }

    fn runs(&self, out: &mut dyn Write) -> Outcome {
        let (row, runs) = self.row_runs()?;
        let (mut columns, mut begins) = (String::new(), String::new());
        for (x, run, byte) in runs {
            columns += &format!(" {:>9}", format!("{x}-{}", x + run - 1));
            begins += &format!(" {byte:>9}");
        }
        writeln!(
            out,
            "\nin row {row} of the window: the runs, and the byte of the tile at which each begins\n"
        )?;
        writeln!(out, "        {columns}\n        {begins}")?;
        Ok(())
    }

    /// The marked pair's place in words.
    fn show_mark(&self, out: &mut dyn Write) -> Outcome {
        if let Some((x, y)) = self.mark {
            let inside = self.inside(x, y)?;
            let (block, byte) = (inside / BLOCK_BYTES, inside % BLOCK_BYTES);
            writeln!(
                out,
                "\n({x}, {y}): block {block}, byte {byte} of it: {block} * {BLOCK_BYTES} + {byte} = {inside} inside the tile"
            )?;
        }
        Ok(())
    }

    fn json(&self) -> Outcome<Value> {
        let (wide, high) = self.block();
        let (row, runs) = self.row_runs()?;
        let run = |(x, run, byte)| json!({"x": x, "elements": run, "byte": byte});
        let runs: Vec<Value> = runs.into_iter().map(run).collect();
        let mark = match self.mark {
            Some((x, y)) => {
                let inside = self.inside(x, y)?;
                json!({"x": x, "y": y, "inside": inside, "block": inside / BLOCK_BYTES, "byte": inside % BLOCK_BYTES})
            }
            None => Value::Null,
        };
        Ok(json!({
            "size": self.tile.size,
            "column": self.column,
            "row": self.row,
            "width": self.tile.width,
            "height": self.tile.height,
            "block": {"width": wide, "height": high, "bytes": BLOCK_BYTES},
            "blocks": self.block_numbers()?,
            "elements": self.element_bytes()?,
            "runs": {"row": row, "runs": runs},
            "mark": mark,
        }))
    }

    /// A pair's place inside the tile, in bytes.
    fn inside(&self, x: u32, y: u32) -> Outcome<u32> {
        Ok(self.place(x, y)?.0)
    }

    /// A pair's place inside the tile, in bytes, and its run, in a window that is just large enough for the tile.
    fn place(&self, x: u32, y: u32) -> Outcome<(u32, u32)> {
        let tile = self.tile;
        let columns = self.column.saturating_add(1);
        let rows = self.row.saturating_add(1);
        let layout = Layout {
            base: 0,
            pitch: columns.saturating_mul(tile.width),
            height: rows.saturating_mul(tile.height),
            size: tile.size,
            tiled: true,
        };
        let number = u64::from(self.row) * u64::from(columns) + u64::from(self.column);
        match egretfold::translate(&layout, x, y) {
            // no wrap: the tile's number is that of the tile which holds the pair
            Ok(at) => {
                let begins = number * u64::from(TILE_BYTES);
                Ok(((u64::from(at.address) - begins) as u32, at.run))
            }
            Err(refusal) => Err(Failure::Refused(format!(
                "tile in column {}, row {}: refused {}, a window has at most 4096 columns and 4096 rows",
                self.column, self.row, refusal.number()
            ))),
        }
    }
}

/// A row of numbers, the marked one in brackets.
fn show_row(
    numbers: &[u32],
    down: u32,
    marked: Option<(u32, u32)>,
    out: &mut dyn Write,
) -> Outcome {
    for (across, number) in (0..).zip(numbers) {
        let shown = if marked == Some((across, down)) {
            format!("[{number}]")
        } else {
            number.to_string()
        };
        write!(out, "{shown:>6}")?;
    }
    writeln!(out)?;
    Ok(())
}
