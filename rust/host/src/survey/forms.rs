//! The forms of a survey: text with a picture of the pairs that pass, JSON, PGM, SVG.

use crate::common::failure::Outcome;
use crate::common::kinds::Address;
use crate::common::names;
use crate::common::replaced::{PGM_BEGIN, SVG_BEGIN};
use crate::common::schema;
use crate::common::settings::{Setting, Value};
use crate::explain::cause::Refused;
use crate::score::picture::svg::{Drawing, Style, INK, PAPER};
use crate::score::picture::{FONTS, NO_WIDER};
use crate::survey::Asked;
use serde_json::json;
use std::fmt::Write as _;
use std::io::Write;

/// The most characters of a row of the picture in text.
const WIDEST: usize = 96;

/// The side of an SVG picture, at most, and that of one pair.
const SIDE: usize = 960;
const LARGEST_PAIR: usize = 16;

/// Around an SVG picture, from a line of its caption to the next, and the width that these need.
const MARGIN: usize = 16;
const CAPTION_LINE: usize = 20;
const CAPTION_WIDTH: usize = 560;

/// The names of the stream and the dump.
pub struct Names<'a> {
    pub stream: &'a str,
    pub memory: &'a str,
}

/// A survey that was made.
pub struct Survey<'a> {
    pub asked: &'a Asked<'a>,
    pub names: Names<'a>,
    /// A byte 1 or 0 a pair, row by row.
    pub room: Vec<u8>,
    pub passed: u32,
}

impl Survey<'_> {
    fn columns(&self) -> usize {
        self.asked.sides().map_or(1, |(columns, _)| columns) as usize
    }

    /// The pairs of each row.
    fn rows(&self) -> impl Iterator<Item = &[u8]> {
        self.room.chunks(self.columns())
    }

    pub fn text(&self, out: &mut dyn Write) -> Outcome {
        head(self.asked, &self.names, out)?;
        let (passed, pairs) = (self.passed, self.room.len());
        writeln!(out, "  passed  {passed} of {pairs}")?;
        writeln!(out)?;
        self.picture(out)
    }

    /// A character a pair, or a square of them where the rows are long.
    fn picture(&self, out: &mut dyn Write) -> Outcome {
        let side = (self.columns() + WIDEST - 1) / WIDEST;
        match side {
            1 => writeln!(out, "a character a pair: # passes, . doesn't")?,
            _ => writeln!(
                out,
                "a character for {side} x {side} pairs: # all pass, + some, . none"
            )?,
        }
        let rows: Vec<&[u8]> = self.rows().collect();
        for band in rows.chunks(side) {
            let mut line = String::new();
            for start in (0..self.columns()).step_by(side) {
                let parts = band
                    .iter()
                    .map(|row| &row[start..row.len().min(start + side)]);
                line.push(mark(parts));
            }
            writeln!(out, "  {line}")?;
        }
        Ok(())
    }

    pub fn json(&self, out: &mut dyn Write) -> Outcome {
        let [_, j0, _, _] = self.asked.domain;
        for (row, pairs) in (u64::from(j0)..).zip(self.rows()) {
            let passed: u32 = pairs.iter().map(|byte| u32::from(*byte)).sum();
            let bits: String = pairs.iter().map(|byte| char::from(b'0' + byte)).collect();
            let line = json!({"row": row, "passed": passed, "pairs": bits});
            schema::line(out, line)?;
        }
        let mut value = summary(self.asked);
        value["pairs"] = json!(self.room.len());
        value["passed"] = json!(self.passed);
        schema::line(out, json!({ "survey": value }))
    }

    /// A grey picture of a byte a pair, 255 where it passes.
    pub fn pgm(&self) -> Vec<u8> {
        let rows = self.rows().count();
        let mut bytes = format!("{PGM_BEGIN}{} {rows}\n255\n", self.columns()).into_bytes();
        bytes.extend(self.room.iter().map(|byte| 255 * byte));
        bytes
    }

    /// A dark square for each pair that passes, those side by side as one, in a frame, with a caption below it.
    pub fn svg(&self) -> String {
        let (columns, rows) = (self.columns(), self.rows().count());
        let pair = (SIDE / columns.max(rows)).clamp(1, LARGEST_PAIR);
        let (width, height) = (columns * pair, rows * pair);
        let caption = self.caption();
        let whole_width = width.max(CAPTION_WIDTH) + 2 * MARGIN;
        let whole_height = height + 2 * MARGIN + CAPTION_LINE * caption.len();
        let title = &caption[0];
        let mut text = format!(
            r##"{SVG_BEGIN}xmlns="http://www.w3.org/2000/svg" width="{whole_width}" height="{whole_height}" viewBox="0 0 {whole_width} {whole_height}" {FONTS} {NO_WIDER} role="img">
<title>{title}</title>
<rect width="{whole_width}" height="{whole_height}" fill="{PAPER}"/>
<svg x="{MARGIN}" y="{MARGIN}" width="{width}" height="{height}" viewBox="0 0 {columns} {rows}" shape-rendering="crispEdges">
"##
        );
        for (y, row) in self.rows().enumerate() {
            for (x, run) in runs(row) {
                // Writing to a string can't fail.
                let _ = writeln!(
                    text,
                    r##"<rect x="{x}" y="{y}" width="{run}" height="1" fill="{INK}"/>"##
                );
            }
        }
        text += "</svg>\n";
        let mut around = Drawing::default();
        // Around the pairs, not over them.
        let (x, y) = (MARGIN as u32 - 1, MARGIN as u32 - 1);
        let size = (width as u32 + 2, height as u32 + 2);
        let frame = format!(r#"fill="none" stroke="{INK}" stroke-width="2""#);
        around.rect((x, y), size, &frame);
        for (place, line) in (1..).zip(&caption) {
            let y = MARGIN + height + 4 + CAPTION_LINE * place;
            around.text((x, y as u32), line, &Style::of(14, INK));
        }
        text + &around.elements() + "</svg>\n"
    }

    /// What the picture shows, a line each: how many pairs pass, of which domain, and what is asked of them.
    fn caption(&self) -> Vec<String> {
        let (passed, pairs) = (self.passed, self.room.len());
        let [i0, j0, i1, j1] = self.asked.domain;
        let mut caption = vec![
            format!("{passed} of {pairs} pairs pass"),
            format!("domain ({i0}, {j0}) to ({i1}, {j1}); a dark square is a pair that passes"),
        ];
        caption.extend(test(self.asked).map(|test| format!("test {test}")));
        caption
    }
}

/// The test with the value that it is asked with, where one is set.
fn test(asked: &Asked) -> Option<String> {
    let (value, number) = (asked.value, asked.session.test()?);
    let named = names::conditional_test(number);
    let name = named.map_or("unknown", |test| test.name);
    Some(match named.and_then(|test| test.sign) {
        Some(sign) => format!("{number}, {name}: {value} {sign} b"),
        None => format!("{number}, {name}, whatever b is"),
    })
}

/// What is asked of what.
fn head(asked: &Asked, names: &Names, out: &mut dyn Write) -> Outcome {
    let Names { stream, memory } = names;
    writeln!(out, "survey of {memory} by the settings of {stream}")?;
    if let Some(buffer) = asked.buffer {
        let setting = Setting {
            name: String::new(),
            value: Value::Array(buffer),
        };
        writeln!(out, "  buffer  {}", setting.words())?;
    }
    if let Some(test) = test(asked) {
        writeln!(out, "  test    {test}")?;
    }
    let (at, length) = (Address(asked.at), asked.dump.len());
    writeln!(out, "  memory  {length} bytes from {at} on")?;
    let [i0, j0, i1, j1] = asked.domain;
    write!(out, "  domain  ({i0}, {j0}) to ({i1}, {j1})")?;
    match asked.sides() {
        Some((columns, rows)) => {
            let pairs = u128::from(columns) * u128::from(rows);
            let ending = if pairs == 1 { "" } else { "s" };
            writeln!(out, ", {columns} x {rows} = {pairs} pair{ending}")?;
        }
        None => writeln!(out)?,
    }
    Ok(())
}

/// Tells a survey that was refused.
pub fn refused(
    asked: &Asked,
    names: &Names,
    refused: &Refused,
    as_json: bool,
    out: &mut dyn Write,
) -> Outcome {
    if as_json {
        let mut value = summary(asked);
        value["refused"] = json!(refused.number);
        value["cause"] = json!(refused.cause);
        schema::line(out, json!({ "survey": value }))?;
    } else {
        head(asked, names, out)?;
        writeln!(out, "  {refused}")?;
    }
    Ok(())
}

fn summary(asked: &Asked) -> serde_json::Value {
    let test = asked.session.test();
    let name = test.and_then(names::conditional_test).map(|test| test.name);
    json!({
        "value": asked.value,
        "test": test,
        "name": name,
        "domain": asked.domain,
        "at": Address(asked.at).to_string(),
        "bytes": asked.dump.len(),
    })
}

/// The character for these pairs.
fn mark<'a>(parts: impl Iterator<Item = &'a [u8]>) -> char {
    let (mut passed, mut all) = (0, 0);
    for part in parts {
        all += part.len();
        passed += part.iter().filter(|byte| **byte == 1).count();
    }
    match passed {
        0 => '.',
        _ if passed == all => '#',
        _ => '+',
    }
}

/// Where pairs that pass stand side by side: the first column, and how many.
fn runs(row: &[u8]) -> Vec<(usize, usize)> {
    let mut runs: Vec<(usize, usize)> = Vec::new();
    for (x, byte) in row.iter().enumerate() {
        match (byte, runs.last_mut()) {
            (1, Some((first, length))) if *first + *length == x => *length += 1,
            (1, _) => runs.push((x, 1)),
            _ => {}
        }
    }
    runs
}

#[cfg(test)]
mod tests {
    use super::{mark, runs};

    #[test]
    fn pairs_side_by_side_are_one_run() {
        assert_eq!(runs(&[0, 1, 1, 0, 1]), [(1, 2), (4, 1)]);
        assert_eq!(runs(&[1, 1, 1]), [(0, 3)]);
        assert_eq!(runs(&[0, 0]), []);
    }

    #[test]
    fn a_character_says_all_some_or_none() {
        for (rows, is) in [
            ([[1, 1], [1, 1]], '#'),
            ([[1, 0], [0, 0]], '+'),
            ([[0, 0], [0, 0]], '.'),
        ] {
            assert_eq!(mark(rows.iter().map(|row| &row[..])), is);
        }
    }
}
