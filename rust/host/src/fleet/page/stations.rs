//! The table of stations: sorted where scripts run, by the values that its cells carry.

use crate::common::digits::grouped;
use crate::fleet::month::{station, Fleet};
use crate::fleet::page::{escaped, fits, link, of_card, Shown};
use crate::score::asked::Card;
use crate::score::month::{self, Score, Served};

const HEADS: [(&str, bool); 9] = [
    ("station", true),
    ("lessee", true),
    ("served", false),
    ("owed", false),
    ("part", false),
    ("dark days", false),
    ("full days", false),
    ("verdict", true),
    ("perhaps because", true),
];

pub fn table(fleet: &Fleet, cards: &[Shown]) -> String {
    let head = |(name, text): &(&str, bool)| {
        let class = if *text { r#" class="text""# } else { "" };
        format!("<th scope=\"col\"{class}>{name}</th>")
    };
    let heads: String = HEADS.iter().map(head).collect();
    let rows: String = cards.iter().map(row).collect();
    let (total, fits) = (total(fleet), fits(cards.len()));
    format!(
        "<div class=\"wide\">\n<table class=\"stations sorts{fits}\">\n<thead><tr>{heads}</tr></thead>\n<tbody>\n{rows}</tbody>\n<tfoot>{total}</tfoot>\n</table>\n</div>\n"
    )
}

/// A cell of words, which are also what it is sorted by.
fn words(shown: &str, value: &str) -> String {
    let value = escaped(value);
    format!(r#"<td class="text" data-v="{value}">{shown}</td>"#)
}

/// A cell of a number.
fn number(shown: &str, value: u64) -> String {
    format!(r#"<td class="number" data-v="{value}">{shown}</td>"#)
}

fn row(shown: &Shown) -> String {
    let card = shown.card;
    let lessee = card.issue().lessee.as_deref().unwrap_or_default();
    let begin = words(&link(shown), station(card)) + &words(&escaped(lessee), lessee);
    let end = match card {
        Card::Scored(score) => scored(score),
        Card::Unscored(unscored) => {
            // Before all numbers.
            let nothing = r#"<td class="number" data-v="-1">–</td>"#.repeat(5);
            let name = format!(r#"<span class="none">{}</span>"#, unscored.name());
            nothing + &words(&name, unscored.name()) + &words("", "")
        }
    };
    let by = of_card(card);
    format!("<tr {by}>{begin}{end}</tr>\n")
}

fn scored(score: &Score) -> String {
    let (served, owed) = (score.month.served, score.month.owed);
    // Parts are sorted by ten places, more than a part of any two months needs to differ.
    let part = (u128::from(served) * 10_000_000_000).checked_div(u128::from(owed));
    let part = part.map_or(u64::MAX >> 12, |part| part as u64);
    let percent = month::shown(score.percent(), "–");
    let (dark, full) = (score.count(Served::Dark), score.count(Served::InFull));
    let verdict = score.verdict_name();
    let because = score.explanation().unwrap_or_default();
    let class = if verdict == "short" { "short" } else { "" };
    let shown = format!(r#"<span class="{class}">{verdict}</span>"#);
    [
        number(&grouped(served), served),
        number(&grouped(owed), owed),
        number(&percent, part),
        number(&dark.to_string(), dark as u64),
        number(&full.to_string(), full as u64),
        words(&shown, verdict),
        words(&escaped(&because), &because),
    ]
    .concat()
}

fn total(fleet: &Fleet) -> String {
    let four = &fleet.four;
    let percent = month::shown(fleet.percent(), "–");
    let numbers = [
        grouped(four.served),
        grouped(four.owed),
        percent,
        four.silent_days.to_string(),
        fleet.full_days().to_string(),
    ];
    let numbers = numbers
        .iter()
        .map(|number| format!(r#"<td class="number">{number}</td>"#));
    let numbers: String = numbers.collect();
    format!(r#"<tr><td class="text" colspan="2">total</td>{numbers}<td colspan="2"></td></tr>"#)
}
