//! A card held against what is made anew of its logs. It is verified where the two are the same to the byte; where they aren't,
//! each figure that differs is named, in the block and as shown, and if none does, the first line.

use crate::verify::given::Given;
use serde_json::Value;

/// Where a figure stands.
#[derive(Clone, Copy, PartialEq, Eq)]
pub enum Place {
    /// In the block that programs read.
    Block,
    /// As people see it.
    Shown,
}

impl Place {
    pub fn name(self) -> &'static str {
        match self {
            Place::Block => "in the block",
            Place::Shown => "shown",
        }
    }

    pub fn key(self) -> &'static str {
        match self {
            Place::Block => "block",
            Place::Shown => "shown",
        }
    }
}

pub struct Difference {
    pub what: String,
    pub place: Place,
    /// What the card has, and what its logs give; nothing where it isn't there.
    pub card: String,
    pub logs: String,
}

/// Letters of a text that are told of it.
const LETTERS: usize = 160;

impl Difference {
    fn new(what: &str, place: Place, card: &str, logs: &str) -> Difference {
        Difference {
            what: what.to_string(),
            place,
            card: begin_of(card),
            logs: begin_of(logs),
        }
    }
}

fn begin_of(text: &str) -> String {
    let mut begin: String = text.chars().take(LETTERS).collect();
    if begin.len() < text.len() {
        begin.push('…');
    }
    begin
}

/// Where the card isn't what is made of its logs; nothing where it is, to the byte.
pub fn differences(given: &Given, made: &str) -> Vec<Difference> {
    if given.text == made {
        return Vec::new();
    }
    let mut found = Vec::new();
    // What is made here can be read here.
    let (lines, shown) = given.form.parted(made).unwrap_or_default();
    if let Some(one) = score_or_none(&given.lines, &lines) {
        return vec![one];
    }
    figures(&given.lines, &lines, &mut found);
    pieces_apart(&given.shown, &shown, &mut found);
    if found.is_empty() {
        found.push(first_line(&given.text, made));
    }
    found
}

/// Of two cards one of which has a score, that alone is told: all else differs by it.
fn score_or_none(card: &[Value], logs: &[Value]) -> Option<Difference> {
    let outcome = |lines: &[Value]| {
        let summary = &lines.last()?["summary"];
        let is_scored = summary.get("unscored").is_none();
        let told = if is_scored {
            summary.get("verdict")
        } else {
            summary["unscored"].get("name")
        };
        Some((is_scored, self::told(told)))
    };
    let ((is_scored, is), (is_due, due)) = (outcome(card)?, outcome(logs)?);
    (is_scored != is_due).then(|| Difference::new("verdict", Place::Block, &is, &due))
}

/// Differences among the lines of figures.
fn figures(card: &[Value], logs: &[Value], found: &mut Vec<Difference>) {
    for place in 0..card.len().max(logs.len()) {
        let (card, logs) = (card.get(place), logs.get(place));
        let day = logs.or(card).and_then(|line| line.get("day"));
        let name = match day {
            Some(day) => format!("day {day}"),
            None => String::new(),
        };
        values(&name, card, logs, found);
    }
}

/// Differences between two values, down to the smallest parts that differ.
fn values(name: &str, card: Option<&Value>, logs: Option<&Value>, found: &mut Vec<Difference>) {
    let within = |key: &str| match (name, key) {
        (name, "summary") => name.to_string(),
        ("", key) => key.to_string(),
        (name, key) => format!("{name}, {key}"),
    };
    match (card, logs) {
        (Some(Value::Object(card)), Some(Value::Object(logs))) => {
            for (key, value) in logs {
                values(&within(key), card.get(key), Some(value), found);
            }
            let others = card.iter().filter(|(key, _)| !logs.contains_key(*key));
            for (key, value) in others {
                values(&within(key), Some(value), None, found);
            }
        }
        (Some(Value::Array(card)), Some(Value::Array(logs))) if card.len() == logs.len() => {
            for (number, (card, logs)) in (1..).zip(card.iter().zip(logs)) {
                values(&within(&format!("{number}")), Some(card), Some(logs), found);
            }
        }
        (card, logs) if card == logs => {}
        (card, logs) => {
            let name = if name.is_empty() { "a line" } else { name };
            found.push(Difference::new(
                name,
                Place::Block,
                &told(card),
                &told(logs),
            ));
        }
    }
}

fn told(value: Option<&Value>) -> String {
    match value {
        None => "nothing".to_string(),
        Some(Value::String(text)) => text.clone(),
        Some(value) => value.to_string(),
    }
}

/// What stands between marks, and the marks themselves.
fn pieces(text: &str) -> impl Iterator<Item = &str> {
    let parted = text.split_inclusive('>').flat_map(|part| {
        let (before, mark) = part.split_at(part.find('<').unwrap_or(part.len()));
        [before, mark]
    });
    parted.filter(|piece| !piece.trim().is_empty())
}

/// Differences among what is shown, up to the first place from which the two have other marks.
fn pieces_apart(card: &str, logs: &str, found: &mut Vec<Difference>) {
    let (mut card, mut logs) = (pieces(card), pieces(logs));
    let mut at = At::default();
    loop {
        let (is, due) = (card.next(), logs.next());
        at.pass(due.unwrap_or_default());
        if is != due {
            let (is, due) = (is.unwrap_or("nothing"), due.unwrap_or("nothing"));
            found.push(Difference::new(&at.name(due), Place::Shown, is, due));
        }
        match (is, due) {
            (Some(is), Some(due)) if element(is) == element(due) => {}
            _ => return,
        }
    }
}

/// The name of the element that a mark begins or ends; none of a text.
fn element(piece: &str) -> Option<&str> {
    let mark = piece.strip_prefix('<')?;
    mark.split(|letter: char| letter.is_whitespace() || letter == '>')
        .next()
}

/// Where in what is shown a piece stands.
#[derive(Default)]
struct At<'a> {
    day: Option<&'a str>,
    /// What the last mark says of the text behind it.
    figure: Option<&'a str>,
}

impl<'a> At<'a> {
    fn pass(&mut self, due: &'a str) {
        if !due.starts_with('<') {
            return;
        }
        self.figure = attribute(due, " data-figure=\"").or_else(|| element(due));
        match attribute(due, " data-day=\"") {
            Some(day) => self.day = Some(day),
            None if due == "</g>" => self.day = None,
            None => {}
        }
    }

    fn name(&self, due: &str) -> String {
        let what = if due.starts_with('<') {
            "drawn"
        } else {
            self.figure.unwrap_or("text")
        };
        match self.day {
            Some(day) => format!("day {day}, {what}"),
            None => what.to_string(),
        }
    }
}

fn attribute<'a>(mark: &'a str, begin: &str) -> Option<&'a str> {
    mark.split_once(begin)?.1.split('"').next()
}

/// Of two cards whose figures are the same: something else was changed, or another version drew it.
fn first_line(card: &str, made: &str) -> Difference {
    let (mut is, mut due) = (card.split('\n'), made.split('\n'));
    let mut number = 1;
    loop {
        match (is.next(), due.next()) {
            (Some(is), Some(due)) if is == due => number += 1,
            (is, due) => {
                let (is, due) = (is.unwrap_or("nothing"), due.unwrap_or("nothing"));
                let what = format!("line {number}");
                return Difference::new(&what, Place::Shown, is, due);
            }
        }
    }
}

#[cfg(test)]
mod tests {
    use super::*;
    use serde_json::json;

    fn names(found: &[Difference]) -> Vec<&str> {
        found.iter().map(|one| one.what.as_str()).collect()
    }

    #[test]
    fn figures_are_named_down_to_their_parts() {
        let logs = [
            json!({"day": 7, "served": 1, "owed": 2}),
            json!({"summary": {"lease": {"owed": 2}, "checks": ["a"], "sha256": "x"}}),
        ];
        let card = [
            json!({"day": 7, "served": 2, "owed": 2, "more": 0}),
            json!({"summary": {"lease": {"owed": 3}, "checks": [], "sha256": null}}),
            json!({"day": 8}),
        ];
        let mut found = Vec::new();
        figures(&logs, &logs, &mut found);
        assert!(found.is_empty());
        figures(&card, &logs, &mut found);
        let due = [
            "day 7, served",
            "day 7, more",
            "lease, owed",
            "checks",
            "sha256",
            "day 8",
        ];
        assert_eq!(names(&found), due);
        assert_eq!((&*found[0].card, &*found[0].logs), ("2", "1"));
        assert_eq!((&*found[1].card, &*found[1].logs), ("0", "nothing"));
    }

    #[test]
    fn what_is_shown_is_named_by_its_marks() {
        let logs = "<svg>\n<g data-day=\"7\"><title>seven</title>\n<rect x=\"1\"/>\n<text data-figure=\"served\">1</text>\n</g>\n\
                    <text data-figure=\"verdict\">SHORT</text></svg>";
        let apart = |card: &str| {
            let mut found = Vec::new();
            pieces_apart(card, logs, &mut found);
            found
        };
        assert!(apart(logs).is_empty());
        for (old, new, due) in [
            (">1<", ">2<", "day 7, served"),
            ("seven", "eight", "day 7, title"),
            ("x=\"1\"", "x=\"2\"", "day 7, drawn"),
            ("SHORT", "FULL", "verdict"),
            ("</svg>", "<text>9</text></svg>", "drawn"),
            ("<svg>\n", "<svg><!-- -->\n", "day 7, drawn"),
            ("</svg>", "", "drawn"),
        ] {
            assert_eq!(names(&apart(&logs.replace(old, new))), [due], "{new}");
        }
        let both = logs.replace(">1<", "><").replace("SHORT", "FULL");
        assert_eq!(names(&apart(&both)), ["day 7, served"]);
        let both = logs.replace(">1<", ">0<").replace("SHORT", "FULL");
        assert_eq!(names(&apart(&both)), ["day 7, served", "verdict"]);
    }

    #[test]
    fn texts_of_the_same_figures_differ_in_a_line() {
        let one = first_line("a\nb\r\n", "a\nb\n");
        assert_eq!((&*one.what, &*one.card, &*one.logs), ("line 2", "b\r", "b"));
        assert_eq!(first_line("a\nb", "a").what, "line 2");
    }
}
