//! The days of one station: a strip that goes on in the next line where a screen is narrow, so that it is seen whole.

use crate::fleet::page::glance::{mark, LEGEND};
use crate::fleet::page::{escaped, picture};
use crate::score::asked::Card;
use crate::score::month::Day;

/// The days with their marks, or why there are none.
pub fn of(card: &Card) -> String {
    match card {
        Card::Scored(score) => {
            let days: String = score.days.iter().map(item).collect();
            format!("<ol class=\"strip\">\n{days}</ol>\n{LEGEND}")
        }
        Card::Unscored(unscored) => {
            let why = picture::unscored::without_folders(&unscored.why, &unscored.inputs);
            let lines = why
                .lines()
                .map(|line| format!("<li>{}</li>\n", escaped(line.trim())));
            let lines: String = lines.collect();
            format!("<div class=\"notice\">\n<h2>There is no score, because</h2>\n<ul>\n{lines}</ul>\n</div>\n")
        }
    }
}

/// A day by its place in the month where that is known, else by its number.
fn item(day: &Day) -> String {
    let name = day.date.map_or(day.number, |date| date.day);
    let (look, mark) = mark(day);
    format!("<li><b>{name}</b><i {look}>{mark}</i></li>\n")
}
