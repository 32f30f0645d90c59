//! The month at a glance: a station a row, a day a cell.

use crate::fleet::page::{escaped, fits, link, of_card, Shown};
use crate::score::asked::Card;
use crate::score::month::{Day, Served};
use crate::score::picture;

/// Where a page is to be light, days that were served in full are told by their mark alone.
pub fn table(cards: &[Shown], is_light: bool) -> String {
    let days = cards.iter().map(|shown| shown.card.line().days).max();
    // A line that is refused may have any number of days.
    let days = days.unwrap_or(0).min(31);
    let head = |name: &String| format!("<th scope=\"col\">{name}</th>");
    let heads: String = heads(cards, days).iter().map(head).collect();
    let rows: String = cards
        .iter()
        .map(|shown| row(shown, days, is_light))
        .collect();
    let fits = fits(cards.len());
    format!(
        "<div class=\"wide\">\n<table class=\"glance{fits}\">\n<thead><tr><th></th>{heads}</tr></thead>\n<tbody>\n{rows}</tbody>\n</table>\n</div>\n{LEGEND}"
    )
}

/// The days of the month where all stations begin with the same date, else the lease's
/// days, counted from 1 on.
fn heads(cards: &[Shown], days: u32) -> Vec<String> {
    let mut froms = cards.iter().map(|shown| shown.card.from());
    let from = froms.next().flatten();
    let dates = from.filter(|_| froms.all(|other| other == from));
    match dates.and_then(|from| from.run(days)) {
        Some(dates) => dates.iter().map(|date| date.day.to_string()).collect(),
        None => (1..=days).map(|day| day.to_string()).collect(),
    }
}

fn row(shown: &Shown, days: u32, is_light: bool) -> String {
    let cells = match shown.card {
        Card::Scored(score) => score.days.iter().map(|day| cell(day, is_light)).collect(),
        Card::Unscored(unscored) => {
            let why = picture::unscored::without_folders(&unscored.why, &unscored.inputs);
            let title = escaped(&why.replace('\n', ";"));
            let name = unscored.name();
            format!(r#"<td class="u" colspan="{days}" title="{title}">{name}</td>"#)
        }
    };
    let (by, name) = (of_card(shown.card), link(shown));
    format!("<tr {by}><th scope=\"row\">{name}</th>{cells}</tr>\n")
}

fn cell(day: &Day, is_light: bool) -> String {
    if is_light && day.kind() == Served::InFull {
        return r#"<td class="f">·</td>"#.to_string();
    }
    let (look, mark) = mark(day);
    format!("<td {look}>{mark}</td>")
}

/// How a day looks, as attributes of what stands for it, and its mark.
pub fn mark(day: &Day) -> (String, String) {
    let title = escaped(&picture::told(day));
    let part = |served: u64, owed: u64| served * 100 / owed;
    let (class, more, mark) = match day.kind() {
        Served::InFull => ("f", String::new(), "·".to_string()),
        Served::InPart => {
            let part = part(day.served, day.owed);
            let style = format!(r#" style="--part:{part}%""#);
            ("p", style, part.to_string())
        }
        Served::Dark if day.in_log => ("d", String::new(), "×".to_string()),
        Served::Dark => ("d", String::new(), "?".to_string()),
        Served::NothingOwed => ("o", String::new(), "–".to_string()),
    };
    (format!(r#"class="{class}"{more} title="{title}""#), mark)
}

pub const LEGEND: &str = r#"<p class="legend">
<span><i class="d">×</i> dark: nothing served of what is owed</span>
<span><i class="d">?</i> dark: the log has no such day</span>
<span><i class="p" style="--part:52%">52</i> served in part, in percent</span>
<span><i class="f">·</i> served in full</span>
<span><i class="o">–</i> nothing owed</span>
</p>
"#;
