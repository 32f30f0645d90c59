//! The form of a month that a browser shows: one file with all that it needs, which can
//! be read where no script runs and fetches nothing; of a large fleet the cards are files beside it, to which
//! the stations' names lead. A day is a cell that can be told without colour: a dark one is black with a cross.

mod glance;
mod lessees;
pub mod linked;
mod stations;
mod strip;

use crate::common::digits::Digits;
use crate::common::failure::{Failure, Outcome};
use crate::common::replaced::HTML_BEGIN;
use crate::fleet::month::{station, Fleet};
use crate::fleet::page::linked::Linked;
use crate::fleet::text;
use crate::score::asked::Card;
use crate::score::block;
use crate::score::issue::VERSION;
use crate::score::picture::svg::Drawing;
use crate::score::picture::{self, PATTERNS};
use std::io;

const STYLE: &str = include_str!("style.css");
const SCRIPT: &str = include_str!("page.js");

/// Nothing is fetched, from wherever the file is opened.
const POLICY: &str = "default-src 'none'; style-src 'unsafe-inline'; script-src 'unsafe-inline'";

/// Stations on a page, which is made whole in memory: some ten thousand bytes each.
const MOST: usize = 5_000;

/// Whether a page holds so many.
pub fn holds(stations: usize) -> Outcome {
    if stations > MOST {
        Err(Failure::Wrong(format!(
            "--html: a page holds {MOST} stations at most, and these are {stations}; --cards draws any number"
        )))
    } else {
        Ok(())
    }
}

/// A station on a page.
pub struct Shown<'a> {
    card: &'a Card,
    /// Where its name leads: to its card, in the page or in a file.
    leads: String,
}

/// The name of a card's place in the page.
fn anchor(place: usize) -> String {
    format!("station-{place}")
}

/// The page of one station.
pub fn of_one(card: &Card) -> String {
    let card = &block::printed(card);
    let month = picture::title_of(card);
    let title = match card.issue().whose() {
        Some(whose) => format!("{whose}: {month}"),
        None => month,
    };
    let told = match card {
        Card::Scored(score) => score.verdict(),
        Card::Unscored(unscored) => unscored.name().to_string(),
    };
    let checks = card.score().map_or(&[][..], |score| &score.checks);
    let checks = checks
        .iter()
        .map(|check| format!("<li>{}</li>\n", escaped(&check.text)));
    let parts = [
        notice("Check before sending", checks.collect()),
        strip::of(card),
        card_within(0, card, &picture::svg_in_its_page(card)),
    ];
    let issued = card.issue().told();
    page("one", &title, &[told], &issued, &parts.concat())
}

/// The page of a fleet, with its cards in it unless they are files.
pub fn html(fleet: &Fleet, files: Option<&Linked>) -> io::Result<String> {
    let told = fleet.told().collect::<io::Result<Vec<(usize, Card)>>>()?;
    let shown = |(place, card): &'_ (usize, Card)| match files {
        Some(files) => files.card(station(card)),
        None => format!("#{}", anchor(*place)),
    };
    let cards: Vec<Shown> = told
        .iter()
        .map(|told| Shown {
            card: &told.1,
            leads: shown(told),
        })
        .collect();
    let all_cards = || {
        told.iter()
            .map(|(place, card)| card_within(*place, card, &picture::svg_among_others(card)))
    };
    let told = [
        fleet.heading(),
        text::four(fleet, Digits::Grouped),
        fleet.rule.unwrap_or_default().to_string(),
    ];
    let parts = [
        FIND.to_string(),
        notice("No score", cards.iter().filter_map(no_score).collect()),
        notice(
            "Check before sending",
            cards.iter().flat_map(checks).collect(),
        ),
        "<h2>The month at a glance</h2>\n".to_string(),
        glance::table(&cards, files.is_some()),
        "<h2>Stations</h2>\n".to_string(),
        stations::table(fleet, &cards),
        lessees::table(fleet),
        dark_days(&cards),
        match files {
            Some(files) => files.told(),
            None => all_cards().collect(),
        },
    ];
    let issued = format!("Issued {} by egretfold {VERSION}", fleet.date);
    let page = page("fleet", &title(fleet)?, &told, &issued, &parts.concat());
    Ok(page)
}

/// The month, where all stations have the same.
fn title(fleet: &Fleet) -> io::Result<String> {
    let mut first = None;
    for card in fleet.cards() {
        let title = picture::title_of(&card?);
        if *first.get_or_insert_with(|| title.clone()) != title {
            return Ok("Fleet".to_string());
        }
    }
    Ok(format!("Fleet, {}", first.unwrap_or_default()))
}

/// A text that may stand in HTML.
pub fn escaped(text: &str) -> String {
    Drawing::escaped(text)
}

/// A page of this class, headed by this title and what is told below it.
pub fn page(class: &str, title: &str, told: &[String], issued: &str, body: &str) -> String {
    let (title, issued) = (escaped(title), escaped(issued));
    let told = told
        .iter()
        .map(|text| format!("<p>{}</p>\n", escaped(text)));
    let told: String = told.collect();
    format!(
        r#"{HTML_BEGIN}
<head>
<meta charset="utf-8"/>
<meta http-equiv="Content-Security-Policy" content="{POLICY}"/>
<meta name="viewport" content="width=device-width, initial-scale=1"/>
<title>{title}</title>
<style>
{STYLE}</style>
</head>
<body class="{class}">
<svg class="patterns" aria-hidden="true">{PATTERNS}</svg>
<h1>{title}</h1>
{told}<p class="pale">{issued}</p>
{body}<script>
{SCRIPT}</script>
</body>
</html>
"#
    )
}

/// Where the script puts the box that finds stations, and the lists that filter them.
pub const FIND: &str = "<div class=\"find\" hidden=\"\"></div>\n";

/// What a row, a line or a card is found and filtered by.
pub fn found_by(station: &str, lessee: Option<&str>, verdict: &str) -> String {
    let (station, lessee) = (escaped(station), escaped(lessee.unwrap_or_default()));
    let verdict = escaped(verdict);
    format!(r#"data-station="{station}" data-lessee="{lessee}" data-verdict="{verdict}""#)
}

/// The same of a card.
fn of_card(card: &Card) -> String {
    let verdict = match card {
        Card::Scored(score) => score.verdict_name(),
        Card::Unscored(unscored) => unscored.name(),
    };
    found_by(station(card), card.issue().lessee.as_deref(), verdict)
}

/// A station's name that leads to its card.
fn link(shown: &Shown) -> String {
    let (leads, name) = (escaped(&shown.leads), escaped(station(shown.card)));
    format!(r#"<a href="{leads}">{name}</a>"#)
}

/// The class of a table that a printed page holds, so that it is kept whole; a longer one goes over pages, under its head.
pub fn fits(rows: usize) -> &'static str {
    if rows <= 20 {
        " whole"
    } else {
        ""
    }
}

/// Framed lines, where there are any.
pub fn notice(heading: &str, lines: Vec<String>) -> String {
    if lines.is_empty() {
        String::new()
    } else {
        let lines = lines.concat();
        format!("<div class=\"notice\">\n<h2>{heading}</h2>\n<ul>\n{lines}</ul>\n</div>\n")
    }
}

/// A line of a list that begins with a station's name.
fn line(shown: &Shown, text: &str) -> String {
    let by = of_card(shown.card);
    format!("<li {by}>{}: {}</li>\n", link(shown), escaped(text))
}

fn no_score(shown: &Shown) -> Option<String> {
    match shown.card {
        Card::Scored(_) => None,
        Card::Unscored(unscored) => {
            let why = picture::unscored::without_folders(&unscored.why, &unscored.inputs);
            let text = format!("{}: {}", unscored.name(), why.replace('\n', ";"));
            Some(line(shown, &text))
        }
    }
}

fn checks(shown: &Shown) -> Vec<String> {
    let checks = shown.card.score().map_or(&[][..], |score| &score.checks);
    checks
        .iter()
        .map(|check| line(shown, &check.text))
        .collect()
}

fn dark_days(cards: &[Shown]) -> String {
    let dark = |shown: &Shown| {
        let text = text::dark(shown.card.score()?);
        (!text.is_empty()).then(|| line(shown, &text))
    };
    let lines: String = cards.iter().filter_map(dark).collect();
    if lines.is_empty() {
        String::new()
    } else {
        format!("<h2>Dark days</h2>\n<ul>\n{lines}</ul>\n")
    }
}

/// A drawn card with its place and what it is found by.
fn card_within(place: usize, card: &Card, svg: &str) -> String {
    let (id, by) = (anchor(place), of_card(card));
    format!("<section class=\"card\" id=\"{id}\" {by}>\n{svg}</section>\n")
}
