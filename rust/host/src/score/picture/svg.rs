//! Shapes and text as SVG elements, a line each.

use std::fmt::Write;

/// The colours of a picture.
pub const INK: &str = "#1a1a1a";
pub const PALE_INK: &str = "#4d4d4d";
pub const FULL: &str = "#1f6b48";
pub const PART: &str = "#b8651b";
pub const PAPER: &str = "#ffffff";

/// How a text is set.
#[derive(Clone, Copy)]
pub struct Style {
    size: u32,
    ink: &'static str,
    bold: bool,
    /// The side of the text that stands at its place.
    anchor: &'static str,
    /// Text that would be wider is set smaller.
    most: Option<u32>,
    /// What the text shows, for who reads the card back.
    figure: &'static str,
}

impl Style {
    pub const fn of(size: u32, ink: &'static str) -> Style {
        Style {
            size,
            ink,
            bold: false,
            anchor: "start",
            most: None,
            figure: "",
        }
    }

    pub const fn bold(self) -> Style {
        Style { bold: true, ..self }
    }

    pub const fn in_the_middle(self) -> Style {
        Style {
            anchor: "middle",
            ..self
        }
    }

    pub const fn to_the_left(self) -> Style {
        Style {
            anchor: "end",
            ..self
        }
    }

    pub const fn at_most(self, width: u32) -> Style {
        Style {
            most: Some(width),
            ..self
        }
    }

    /// Text that shows this of the month, or of the day whose group it is in.
    pub const fn showing(self, figure: &'static str) -> Style {
        Style { figure, ..self }
    }

    /// The size for this text. Fonts differ, so a letter is taken to be as wide as a
    /// digit in a wide one, 65 hundredths of its size.
    fn size_for(&self, text: &str) -> u32 {
        let letters = text.chars().count().max(1) as u32;
        let fitting = self.most.map(|most| most * 100 / (65 * letters));
        fitting.map_or(self.size, |size| size.clamp(LEAST, self.size))
    }
}

/// The smallest text that can be read on paper.
const LEAST: u32 = 7;

#[derive(Default)]
pub struct Drawing {
    text: String,
}

impl Drawing {
    pub fn elements(self) -> String {
        self.text
    }

    /// A text that may stand in XML: what can't is shown as a replacement.
    pub fn escaped(text: &str) -> String {
        let mut escaped = String::new();
        for letter in text.chars() {
            match letter {
                '&' => escaped.push_str("&amp;"),
                '<' => escaped.push_str("&lt;"),
                '>' => escaped.push_str("&gt;"),
                '"' => escaped.push_str("&quot;"),
                _ if letter.is_control() || matches!(letter, '\u{FFFE}' | '\u{FFFF}') => {
                    escaped.push(char::REPLACEMENT_CHARACTER)
                }
                _ => escaped.push(letter),
            }
        }
        escaped
    }

    fn line(&mut self, element: std::fmt::Arguments) {
        // Writing to a string can't fail.
        let _ = writeln!(self.text, "{element}");
    }

    /// Shapes that belong together, with words that a viewer shows for them.
    pub fn begin_group(&mut self, told: &str) {
        self.begin("", told);
    }

    /// The shapes of a day, likewise.
    pub fn begin_day(&mut self, number: u32, told: &str) {
        self.begin(&format!(r#" data-day="{number}""#), told);
    }

    fn begin(&mut self, marks: &str, told: &str) {
        let told = Drawing::escaped(told);
        self.line(format_args!("<g{marks}><title>{told}</title>"));
    }

    pub fn end_group(&mut self) {
        self.line(format_args!("</g>"));
    }

    pub fn rect(&mut self, (x, y): (u32, u32), (width, height): (u32, u32), look: &str) {
        self.line(format_args!(
            r#"<rect x="{x}" y="{y}" width="{width}" height="{height}" {look}/>"#
        ));
    }

    pub fn circle(&mut self, (x, y): (u32, u32), radius: u32, look: &str) {
        self.line(format_args!(
            r#"<circle cx="{x}" cy="{y}" r="{radius}" {look}/>"#
        ));
    }

    pub fn path(&mut self, steps: &str, look: &str) {
        self.line(format_args!(r#"<path d="{steps}" {look}/>"#));
    }

    /// A line of text, its foot at this height. No text draws nothing.
    pub fn text(&mut self, (x, y): (u32, u32), text: &str, style: &Style) {
        if text.is_empty() {
            return;
        }
        let Style { ink, anchor, .. } = style;
        let size = style.size_for(text);
        let bold = if style.bold {
            r#" font-weight="bold""#
        } else {
            ""
        };
        let figure = match style.figure {
            "" => String::new(),
            figure => format!(r#" data-figure="{figure}""#),
        };
        let text = Drawing::escaped(text);
        self.line(format_args!(
            r#"<text x="{x}" y="{y}" font-size="{size}" fill="{ink}" text-anchor="{anchor}"{bold}{figure}>{text}</text>"#
        ));
    }
}

#[cfg(test)]
mod tests {
    use super::{Drawing, Style};

    #[test]
    fn text_is_escaped() {
        let escaped = Drawing::escaped("a<b> & \"c\"\u{1}\u{FFFE}\té");
        assert_eq!(
            escaped,
            "a&lt;b&gt; &amp; &quot;c&quot;\u{FFFD}\u{FFFD}\u{FFFD}é"
        );
    }

    #[test]
    fn long_text_is_set_smaller() {
        let style = Style::of(12, "black").at_most(124);
        for (letters, size) in [(1, 12), (15, 12), (16, 11), (19, 10), (27, 7), (200, 7)] {
            assert_eq!(style.size_for(&"0".repeat(letters)), size, "{letters}");
        }
        assert_eq!(Style::of(12, "black").size_for(&"0".repeat(200)), 12);
    }
}
