//! The form of a month that is printed: a calendar, in SVG. A week is a row, Monday
//! to Sunday, where dates are known, else seven days are. What a day was served
//! stands there as a bar and as a number, and a dark day is hatched and named, so
//! that all of it can be told without colour.

mod cell;
mod foot;
mod notice;
pub mod svg;
pub mod unscored;

use crate::common::digits::grouped;
use crate::common::replaced::SVG_BEGIN;
use crate::common::text;
use crate::score::asked::Card;
use crate::score::block;
use crate::score::civil::{Date, WEEKDAYS};
use crate::score::issue::Issue;
use crate::score::month::{self, Score, Served};
use crate::score::picture::cell::bar;
pub use crate::score::picture::cell::told;
use crate::score::picture::foot::Foot;
use crate::score::picture::notice::Notice;
use crate::score::picture::svg::{Drawing, Style, FULL, INK, PALE_INK, PAPER, PART};
use egretfold::Verdict;

/// Millimetres on paper, at most: within A4 on its side.
const PAPER_WIDTH: u32 = 260;
const PAPER_HEIGHT: u32 = 195;

/// The drawing's own units.
const WIDTH: u32 = 1080;
const LEFT: u32 = 32;
const RIGHT: u32 = WIDTH - LEFT;

const COLUMNS: usize = 7;
/// From one cell's begin to the next one's.
const COLUMN: u32 = cell::WIDTH + 6;
const ROW: u32 = cell::HEIGHT + 6;
/// Where the first row of cells begins, below the notice.
const TOP: u32 = 210;
/// From the notice to what is below it.
const GAP: u32 = 8;
/// Lines below the title that there is room for beside the totals, from one to the next, and the letters of one that surely
/// fit: a letter is taken to be as wide as a digit in a wide font.
const HEAD_LINES: usize = 3;
const HEAD_LINE: u32 = 24;
const HEAD_LETTERS: usize = 62;

/// Common fonts, of which each machine has one.
pub const FONTS: &str = r#"font-family="DejaVu Sans, Verdana, Arial, Helvetica, sans-serif""#;

/// A picture by itself is seen whole on a narrow screen, and as large as it is drawn on others.
pub const NO_WIDER: &str = r#"style="max-width:100%;height:auto""#;

const TITLE: Style = Style::of(32, INK).bold();
const PLAIN: Style = Style::of(15, INK);
const SMALL: Style = Style::of(12, PALE_INK);

/// A card as a picture of its own.
pub fn svg(card: &Card) -> String {
    let card = block::printed(card);
    drawn(&card).alone(&block::of(&card))
}

/// A card for a page of its own that has the patterns.
pub fn svg_in_its_page(card: &Card) -> String {
    let card = block::printed(card);
    drawn(&card).within(&block::of(&card))
}

/// A card among others on a page that has the patterns: who wants its figures takes the card by itself.
pub fn svg_among_others(card: &Card) -> String {
    drawn(&block::printed(card)).within("")
}

fn drawn(printed: &Card) -> Framed {
    match printed {
        Card::Scored(score) => calendar(score),
        Card::Unscored(unscored) => unscored::drawn(unscored),
    }
}

fn calendar(score: &Score) -> Framed {
    let texts: Vec<String> = score
        .checks
        .iter()
        .map(|check| check.text.clone())
        .collect();
    let notice = (!texts.is_empty()).then(|| Notice::new("Check before sending", &texts));
    let lines = head_lines(&score.issue, lease(score), &score.inputs);
    // What is to be checked stands above all else.
    let above = notice
        .as_ref()
        .map_or(0, |notice| notice.height() + 2 * GAP);
    let top = above + TOP + more_lines(&lines);
    // The weekday of the first day, where dates are known.
    let begin = score.dates().map_or(0, |(first, _)| first.weekday());
    let rows = (begin + score.days.len() + COLUMNS - 1) / COLUMNS;
    let legend_at = top + ROW * rows as u32 + 22;
    let foot = Foot::of(score);
    let height = legend_at + foot.height();
    let mut drawing = Drawing::default();
    drawing.rect((0, 0), (WIDTH, height), &format!(r#"fill="{PAPER}""#));
    if let Some(notice) = &notice {
        notice.draw(&mut drawing, 2 * GAP);
    }
    head(&mut drawing, score, &lines, above);
    weekdays(&mut drawing, score, top);
    for (place, day) in score.days.iter().enumerate() {
        let at = begin + place;
        let x = LEFT + COLUMN * (at % COLUMNS) as u32;
        let y = top + ROW * (at / COLUMNS) as u32;
        cell::draw(&mut drawing, day, (x, y), place == 0);
    }
    legend(&mut drawing, score, legend_at);
    foot.draw(&mut drawing, legend_at);
    Framed {
        title: title(score),
        told: score.verdict(),
        height,
        elements: drawing.elements(),
    }
}

/// A drawing with words for those who can't see it, to be put in its frame.
pub struct Framed {
    title: String,
    told: String,
    height: u32,
    elements: String,
}

/// What the ground of a dark day is filled with.
pub const PATTERNS: &str = r##"<defs>
<pattern id="dark" width="8" height="8" patternUnits="userSpaceOnUse" patternTransform="rotate(45)">
<rect width="8" height="8" fill="#f7f7f7"/>
<rect width="3" height="8" fill="#dcdcdc"/>
</pattern>
</defs>
"##;

impl Framed {
    fn alone(&self, block: &str) -> String {
        let scaled = |most: u32, of: u32, by: u32| (most * of + by / 2) / by;
        let (width, height) = match scaled(PAPER_WIDTH, self.height, WIDTH) {
            high if high <= PAPER_HEIGHT => (PAPER_WIDTH, high),
            _ => (scaled(PAPER_HEIGHT, WIDTH, self.height), PAPER_HEIGHT),
        };
        let size = format!(r#" width="{width}mm" height="{height}mm" {NO_WIDER}"#);
        self.svg(&size, block, PATTERNS)
    }

    fn within(&self, block: &str) -> String {
        self.svg("", block, "")
    }

    fn svg(&self, size: &str, block: &str, patterns: &str) -> String {
        let title = Drawing::escaped(&self.title);
        let told = Drawing::escaped(&self.told);
        let view = format!(r#"viewBox="0 0 {WIDTH} {}""#, self.height);
        let elements = &self.elements;
        format!(
            r##"{SVG_BEGIN}xmlns="http://www.w3.org/2000/svg"{size} {view} {FONTS} role="img">
<title>{title}</title>
<desc>{told}</desc>
{block}{patterns}{elements}</svg>
"##
        )
    }
}

/// What a card is headed by.
pub fn title_of(card: &Card) -> String {
    match card {
        Card::Scored(score) => title(score),
        Card::Unscored(unscored) => unscored::title(unscored),
    }
}

/// The month where the lease lies in one, else its first and last date, else its
/// days.
fn title(score: &Score) -> String {
    match score.dates() {
        Some((first, last)) if (first.year, first.month) == (last.year, last.month) => {
            month_of(first)
        }
        Some((first, last)) => format!("{first} to {last}"),
        None => days_of(score),
    }
}

/// "April 2026".
pub fn month_of(date: Date) -> String {
    format!("{} {}", date.month_name(), date.year)
}

fn days_of(score: &Score) -> String {
    match (score.lease.first_day(), score.lease.last_day()) {
        (first, last) if first == last => format!("Day {first}"),
        (first, last) => format!("Days {first} to {last}"),
    }
}

/// The lease line in words.
fn lease(score: &Score) -> String {
    let owed = grouped(u64::from(score.lease.owed()));
    let lease = match score.dates() {
        Some(_) => format!("{}, {owed} elements owed a day", days_of(score)),
        None => format!("{owed} elements owed a day"),
    };
    format!("{lease}, edition {}", score.edition.number())
}

/// A line of a card, and what it shows, for who reads the card back.
struct Line {
    text: String,
    figure: &'static str,
}

/// A text that shows this, in lines of at most so many letters.
fn lines_of(text: &str, figure: &'static str, most: usize) -> impl Iterator<Item = Line> {
    let lines = wrapped(text, most).into_iter();
    lines.map(move |text| Line { text, figure })
}

/// What stands below a card's title: whose it is, the lease and the log. What is too long for a line goes on in the next one.
fn head_lines(issue: &Issue, lease: String, inputs: &[String]) -> Vec<Line> {
    let log = format!("Log {}", month::log_name(inputs, file_name));
    let whose = issue.whose_within(HEAD_LETTERS).into_iter();
    let texts = whose.map(|whose| (whose, "whose"));
    let texts = texts.chain(issue.lease().map(|number| (number, "lease's number")));
    let texts = texts.chain([(lease, "lease"), (log, "log")]);
    texts
        .flat_map(|(text, figure)| lines_of(&text, figure, HEAD_LETTERS))
        .collect()
}

/// How far more lines than a card has room for move down what is below them.
fn more_lines(lines: &[Line]) -> u32 {
    HEAD_LINE * lines.len().saturating_sub(HEAD_LINES) as u32
}

/// Draws the lines below the title, so far down.
fn draw_lines(drawing: &mut Drawing, lines: &[Line], above: u32) {
    for (place, line) in (0..).zip(lines) {
        let at = (LEFT, above + 88 + HEAD_LINE * place);
        drawing.text(at, &line.text, &PLAIN.showing(line.figure));
    }
}

/// The title and its lines on the left, verdict, totals and days on the right, and a bar of the whole month below them.
fn head(drawing: &mut Drawing, score: &Score, lines: &[Line], above: u32) {
    let heading = TITLE.showing("month");
    drawing.text((LEFT, above + 58), &title(score), &heading);
    draw_lines(drawing, lines, above);
    verdict(drawing, score, above);
    let (served, owed) = (score.month.served, score.month.owed);
    let total = format!("{} of {} elements served", grouped(served), grouped(owed));
    let right = PLAIN.to_the_left();
    let style = right.bold().showing("served of owed");
    drawing.text((RIGHT, above + 112), &total, &style);
    let style = right.showing("part and days");
    drawing.text((RIGHT, above + 136), &in_days(score), &style);
    let fill = match score.month.verdict {
        Verdict::Full => FULL,
        _ => PART,
    };
    let at = (LEFT, above + 148 + more_lines(lines));
    bar(drawing, at, (RIGHT - LEFT, 12), (served, owed), fill);
}

/// "85.08 %: 25 days in full, 1 in part, 4 dark".
fn in_days(score: &Score) -> String {
    let percent = match score.percent() {
        Some(percent) => percent.to_string(),
        None => return "nothing owed".to_string(),
    };
    let full = text::count(score.count(Served::InFull) as u64, "day");
    let (part, dark) = (score.count(Served::InPart), score.count(Served::Dark));
    format!("{percent}: {full} in full, {part} in part, {dark} dark")
}

/// A file's name without the folders that it is in.
pub fn file_name(path: &str) -> String {
    path.rsplit('/').next().unwrap_or(path).to_string()
}

/// A text in lines of at most so many letters, broken at blanks; a word that is longer
/// stands in lines of its own.
fn wrapped(text: &str, most: usize) -> Vec<String> {
    let mut lines = vec![String::new()];
    for word in text.split(' ') {
        let letters: Vec<char> = word.chars().collect();
        for (place, part) in letters.chunks(most).enumerate() {
            let line = lines.last().map_or(0, |line| line.chars().count());
            let fits = place == 0 && line + 1 + part.len() <= most;
            let part: String = part.iter().collect();
            match lines.last_mut() {
                Some(line) if line.is_empty() => *line = part,
                Some(line) if fits => *line += &format!(" {part}"),
                _ => lines.push(part),
            }
        }
    }
    lines
}

/// The verdict in a frame; only a full month's is filled.
fn verdict(drawing: &mut Drawing, score: &Score, above: u32) {
    let framed = |look: &str| format!(r#"fill="{PAPER}" stroke="{INK}" {look}"#);
    let (width, ink, look) = match score.month.verdict {
        Verdict::Full => (120, PAPER, format!(r#"fill="{FULL}""#)),
        Verdict::Short => (150, INK, framed(r#"stroke-width="4""#)),
        Verdict::NothingOwed => (
            270,
            INK,
            framed(r#"stroke-width="2" stroke-dasharray="6 4""#),
        ),
    };
    let x = RIGHT - width;
    let name = score.verdict_name().to_uppercase();
    let style = Style::of(26, ink).bold().in_the_middle();
    let style = style.showing("verdict");
    drawing.rect((x, above + 30), (width, 46), &look);
    drawing.text((x + width / 2, above + 62), &name, &style);
}

/// The names of the weekdays above the cells, which begin there.
fn weekdays(drawing: &mut Drawing, score: &Score, top: u32) {
    if score.dates().is_none() {
        return;
    }
    for (place, name) in WEEKDAYS.iter().enumerate() {
        let x = LEFT + COLUMN * place as u32 + cell::WIDTH / 2;
        drawing.text((x, top - 12), name, &PLAIN.bold().in_the_middle());
    }
}

/// A line of marks with their meanings; where nothing is owed there are none.
fn legend(drawing: &mut Drawing, score: &Score, y: u32) {
    if score.lease.owed() == 0 {
        return;
    }
    let mut x = LEFT + 8;
    for (kind, meaning) in [
        (Served::InFull, "served in full"),
        (Served::InPart, "served in part"),
        (Served::Dark, "dark: nothing served of what is owed"),
    ] {
        cell::mark(drawing, kind, (x, y - 4));
        drawing.text((x + 14, y), meaning, &SMALL);
        x += 44 + 8 * meaning.len() as u32;
    }
    let bars = "bars: the served part of what is owed";
    drawing.text((RIGHT, y), bars, &SMALL.to_the_left());
}

#[cfg(test)]
mod tests {
    use super::{file_name, wrapped};

    #[test]
    fn a_file_is_named_without_its_folders() {
        assert_eq!(file_name("/a/b/station.log"), "station.log");
        assert_eq!(file_name("standard input"), "standard input");
    }

    #[test]
    fn long_text_is_broken_at_blanks() {
        assert_eq!(wrapped("a bc def", 4), ["a bc", "def"]);
        assert_eq!(wrapped("abcdefghi j", 4), ["abcd", "efgh", "i j"]);
        assert_eq!(wrapped("a abcdef", 4), ["a", "abcd", "ef"]);
        assert_eq!(wrapped("", 4), [""]);
    }
}
