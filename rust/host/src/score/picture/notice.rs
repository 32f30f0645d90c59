//! A framed notice on a card: what to check before it is sent, or why there is no
//! score.

use crate::score::picture::svg::{Drawing, Style, INK, PAPER};
use crate::score::picture::{wrapped, LEFT, RIGHT};

/// From one line to the next.
const LINE: u32 = 20;
/// From the frame to the first line, and from the last one to the frame.
const INSET: u32 = 16;

/// Letters of a line that surely fit: a letter is taken to be as wide as a digit in a
/// wide font.
const LETTERS: usize = 100;

const HEADING: Style = Style::of(15, INK).bold();
const TEXT: Style = Style::of(14, INK);

pub struct Notice {
    heading: String,
    lines: Vec<String>,
}

impl Notice {
    pub fn new(heading: &str, texts: &[String]) -> Notice {
        let lines = |text: &String| wrapped(text, LETTERS);
        Notice {
            heading: heading.to_string(),
            lines: texts.iter().flat_map(lines).collect(),
        }
    }

    pub fn height(&self) -> u32 {
        LINE * (1 + self.lines.len() as u32) + 2 * INSET - 6
    }

    pub fn draw(&self, drawing: &mut Drawing, y: u32) {
        let look = format!(r#"fill="{PAPER}" stroke="{INK}" stroke-width="3""#);
        drawing.rect((LEFT, y), (RIGHT - LEFT, self.height()), &look);
        let x = LEFT + INSET;
        drawing.text((x, y + INSET + 12), &self.heading, &HEADING);
        for (place, line) in (1..).zip(&self.lines) {
            drawing.text((x, y + INSET + 12 + LINE * place), line, &TEXT);
        }
    }
}
