//! Shapes of text that several subcommands print.

use crate::address::tiles;
use crate::common::failure::Outcome;
use crate::common::kinds::Address;
use crate::common::names::FormatWord;
use egretfold::Layout;
use std::io::Write;

/// The width that running text is broken at.
const WIDTH: usize = 100;

/// A head and its text, broken at blanks, later lines under the text's first.
pub fn paragraph(out: &mut dyn Write, head: &str, text: &str) -> Outcome {
    let indent = " ".repeat(head.chars().count());
    let mut line = head.to_string();
    let mut empty = true;
    for word in text.split(' ') {
        if !empty && line.chars().count() + 1 + word.chars().count() > WIDTH {
            writeln!(out, "{line}")?;
            line.clone_from(&indent);
            empty = true;
        }
        if !empty {
            line.push(' ');
        }
        line.push_str(word);
        empty = false;
    }
    writeln!(out, "{line}")?;
    Ok(())
}

/// Lines below a heading, where there are any.
pub fn list(out: &mut dyn Write, heading: &str, lines: impl Iterator<Item = String>) -> Outcome {
    for (place, line) in lines.enumerate() {
        if place == 0 {
            writeln!(out)?;
            writeln!(out, "{heading}")?;
        }
        writeln!(out, "  {line}")?;
    }
    Ok(())
}

/// "1 word", "2 words".
pub fn count(number: u64, what: &str) -> String {
    match number {
        1 => format!("1 {what}"),
        _ => format!("{number} {what}s"),
    }
}

/// Numbers in rising order, those in a row as one: "1 to 19, 21".
pub fn ranges(numbers: &[u32]) -> String {
    let mut rows: Vec<(u32, u32)> = Vec::new();
    for number in numbers {
        match rows.last_mut() {
            Some((_, last)) if *last + 1 == *number => *last = *number,
            _ => rows.push((*number, *number)),
        }
    }
    let row = |(first, last): &(u32, u32)| {
        if first == last {
            first.to_string()
        } else {
            format!("{first} to {last}")
        }
    };
    rows.iter().map(row).collect::<Vec<_>>().join(", ")
}

pub fn linear_or_tiled(tiled: bool) -> &'static str {
    if tiled {
        "tiled"
    } else {
        "linear"
    }
}

/// A format word in words: name, linear or tiled, pitch and row step.
pub fn format_word(word: u32) -> String {
    let word = FormatWord(word);
    let (name, pitch) = (format_name(word), word.pitch());
    match tiles::row_step(&layout(0, word.0, 1)) {
        Some(step) => format!("{name}, pitch {pitch}, row step {step}"),
        None => format!("{name}, pitch {pitch}"),
    }
}

/// The format's name, linear or tiled, and superfine where it is.
pub fn format_name(word: FormatWord) -> String {
    let superfine = if word.superfine() { ", superfine" } else { "" };
    let tiling = linear_or_tiled(word.tiled());
    match word.element() {
        Some(element) => format!("{}, {tiling}{superfine}", element.name),
        None => format!("code {}, {tiling}{superfine}", word.code()),
    }
}

/// The layout that base, format word and height describe. An unknown code has
/// size 0, which every call refuses.
pub fn layout(base: u32, format: u32, height: u32) -> Layout {
    let word = FormatWord(format);
    Layout {
        base,
        pitch: word.pitch(),
        height,
        size: word.element().map_or(0, |element| element.size),
        tiled: word.tiled(),
    }
}

/// A layout in words.
pub fn layout_words(layout: &Layout) -> String {
    let tiling = linear_or_tiled(layout.tiled);
    let base = Address(layout.base);
    let size = count(u64::from(layout.size), "byte");
    format!(
        "base {base}, pitch {}, height {}, {size} an element, {tiling}",
        layout.pitch, layout.height
    )
}

/// The output mask: for each output its updated channels.
pub fn output_mask(mask: u32) -> String {
    mask_of(mask, &[0, 1, 2, 3])
}

/// The same for these outputs.
pub fn mask_of(mask: u32, outputs: &[u32]) -> String {
    let channels = |output: u32| -> String {
        (0..4)
            .map(|channel| match mask >> (4 * output + channel) & 1 {
                0 => '-',
                _ => char::from_digit(channel, 10).unwrap_or('?'),
            })
            .collect()
    };
    let each = outputs.iter().map(|n| format!("{n}:{}", channels(*n)));
    each.collect::<Vec<_>>().join(" ")
}
