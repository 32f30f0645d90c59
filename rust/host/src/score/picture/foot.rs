//! The foot of a card: when and by what it was issued, of which bytes, what its words mean, and the lines to sign.

use crate::common::edition;
use crate::score::issue::Issue;
use crate::score::month::{Began, Score};
use crate::score::picture::svg::{Drawing, Style, INK, PALE_INK};
use crate::score::picture::{file_name, lines_of, Line, LEFT, RIGHT, SMALL};

/// From the legend to the first line, and from one line to the next.
const FIRST: u32 = 26;
const STEP: u32 = 16;

/// Letters of a line that surely fit: a letter is taken to be as wide as a digit in a wide font.
const LETTERS: usize = 130;

/// From the last line to the rules that are signed above, and from there to the card's end.
const ROOM: u32 = 44;
const BELOW: u32 = 34;

const LABEL: Style = Style::of(12, PALE_INK);

/// What an element is, in one line.
const ELEMENT: &str = "element: what a run writes to one output at one pair of its domain; a day is served what it claimed, up to what it owes";

pub struct Foot {
    lines: Vec<Line>,
    signed: bool,
}

impl Foot {
    /// Of a card that both sign.
    pub fn of(score: &Score) -> Foot {
        let issue = &score.issue;
        let archive = issue.archive.as_ref();
        let archive = archive
            .map(|archive| format!("SHA-256 of the proved archive that scored it: {archive}"));
        let digest = score.digest.as_ref();
        let digest = digest.map(|digest| format!("SHA-256 of the log's bytes: {digest}"));
        let state = score.began.as_ref().map(|Began { state, sha256 }| {
            let state = file_name(state);
            format!("SHA-256 of the state that it goes on from, {state}: {sha256}")
        });
        let texts = [
            (Some(issue.told()), "issued"),
            (archive, "archive"),
            (digest, "log's digest"),
            (state, "state's digest"),
            (Some(ELEMENT.to_string()), "element"),
            (Some(edition::rule(score.edition).to_string()), "edition"),
            (Some(issue.days()), "time zone"),
        ];
        Foot::new(&texts, true)
    }

    /// Of a card that nobody signs.
    pub fn unsigned(issue: &Issue) -> Foot {
        let texts = [
            (Some(issue.told()), "issued"),
            (Some(issue.days()), "time zone"),
        ];
        Foot::new(&texts, false)
    }

    /// Of these texts, as far as there are any, each with what it shows.
    fn new(texts: &[(Option<String>, &'static str)], signed: bool) -> Foot {
        let texts = texts.iter();
        let texts = texts.filter_map(|(text, figure)| Some((text.as_ref()?, *figure)));
        let lines = texts.flat_map(|(text, figure)| lines_of(text, figure, LETTERS));
        Foot {
            lines: lines.collect(),
            signed,
        }
    }

    /// From the legend down to the card's end.
    pub fn height(&self) -> u32 {
        let room = if self.signed { ROOM } else { 0 };
        self.last_line() + room + BELOW
    }

    fn last_line(&self) -> u32 {
        FIRST + STEP * (self.lines.len() as u32 - 1)
    }

    /// Draws it below this height.
    pub fn draw(&self, drawing: &mut Drawing, y: u32) {
        for (place, line) in (0..).zip(&self.lines) {
            let at = (LEFT, y + FIRST + STEP * place);
            drawing.text(at, &line.text, &SMALL.showing(line.figure));
        }
        if self.signed {
            sign(drawing, y + self.last_line() + ROOM);
        }
    }
}

/// Two rules to write on, with what stands there below them.
fn sign(drawing: &mut Drawing, y: u32) {
    const MIDDLE: u32 = (LEFT + RIGHT) / 2;
    for (from, to, who) in [
        (LEFT, MIDDLE - 20, "lessor"),
        (MIDDLE + 20, RIGHT, "lessee"),
    ] {
        let rule = format!("M{from} {y} L{to} {y}");
        let look = format!(r#"stroke="{INK}" stroke-width="1" fill="none""#);
        drawing.path(&rule, &look);
        let label = format!("{who}: signature, place and date");
        drawing.text((from, y + 16), &label, &LABEL);
    }
}
