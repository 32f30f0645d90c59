//! The form of a history that a browser shows: a row a station, a column a month, and a small picture of the
//! months side by side.

use crate::common::digits::grouped;
use crate::common::edition;
use crate::fleet::page::{escaped, fits, found_by, notice, page, FIND};
use crate::history::months::{Change, History, Month, Station, Total};
use crate::history::period::Period;
use crate::history::text;
use crate::score::civil::Date;
use crate::score::issue::VERSION;
use crate::score::month::{self, filled};
use crate::score::outline::{Came, Sums};
use crate::score::picture::svg::{Drawing, FULL, INK, PAPER};
use egretfold::Edition;

pub fn html(history: &History, date: Date) -> String {
    let rules = history.editions().into_iter();
    let rules = rules.filter_map(|number| Edition::of(number).ok());
    let mut told = vec![text::heading(history)];
    told.extend(rules.map(|edition| edition::rule(edition).to_string()));
    let odds = history.odds.iter();
    let odds = odds.map(|odds| format!("<li>{}</li>\n", escaped(&odds.told())));
    let parts = [
        FIND.to_string(),
        notice("Scores that contradict each other", odds.collect()),
        table(history),
        LEGEND.to_string(),
        worse(history),
        unscored(history),
    ];
    let issued = format!("Issued {date} by egretfold {VERSION}");
    page("history", "Month by month", &told, &issued, &parts.concat())
}

fn table(history: &History) -> String {
    let periods: Vec<Period> = history.totals.iter().map(|total| total.period).collect();
    let head = |period: &Period| format!("<th scope=\"col\">{period}</th>");
    let heads: String = periods.iter().map(head).collect();
    let rows = history.stations.iter();
    let rows: String = rows.map(|station| row(station, &periods)).collect();
    let totals: String = history.totals.iter().map(total).collect();
    let fits = fits(history.stations.len());
    format!(
        "<div class=\"wide\">\n<table class=\"stations months sorts{fits}\">\n<thead><tr><th scope=\"col\" class=\"text\">station</th><th scope=\"col\" class=\"text\">lessee</th><th scope=\"col\" class=\"text\">months</th>{heads}</tr></thead>\n<tbody>\n{rows}</tbody>\n<tfoot><tr><td class=\"text\" colspan=\"3\">total</td>{totals}</tr></tfoot>\n</table>\n</div>\n"
    )
}

/// The months of a station that a column has: several where leases overlap.
fn of_period<'a>(station: &'a Station, period: &'a Period) -> impl Iterator<Item = &'a Month> {
    station
        .months
        .iter()
        .filter(move |month| month.period == *period)
}

fn is_worse(month: &Month) -> bool {
    month.change.as_ref().map_or(false, Change::is_worse)
}

fn row(station: &Station, periods: &[Period]) -> String {
    let (name, lessee) = (&station.name, station.lessee.as_deref());
    let worse = station
        .months
        .iter()
        .filter(|month| is_worse(month))
        .count();
    let last = if station.months.last().map_or(false, is_worse) {
        "worse in the last month"
    } else {
        "not worse in the last month"
    };
    let by = found_by(name, lessee, last);
    let (name, lessee) = (escaped(name), escaped(lessee.unwrap_or_default()));
    let picture = picture(station, periods);
    let cells: String = periods.iter().map(|period| cell(station, period)).collect();
    format!(
        "<tr {by}><td class=\"text\" data-v=\"{name}\">{name}</td><td class=\"text\" data-v=\"{lessee}\">{lessee}</td><td data-v=\"{worse}\">{picture}</td>{cells}</tr>\n"
    )
}

fn cell(station: &Station, period: &Period) -> String {
    let months: Vec<&Month> = of_period(station, period).collect();
    let shown: Vec<String> = months.iter().map(|month| shown(month)).collect();
    let part =
        |sums: &Sums| (u128::from(sums.served) * 1_000_000).checked_div(u128::from(sums.owed));
    let part = months
        .first()
        .and_then(|month| month.outline.sums())
        .and_then(part);
    let value = part.map_or("-1".to_string(), |part| part.to_string());
    let class = if months.iter().any(|month| is_worse(month)) {
        "number worse"
    } else {
        "number"
    };
    let told: Vec<String> = months.iter().map(|month| told(month)).collect();
    let title = escaped(&told.join("; "));
    format!(
        "<td class=\"{class}\" data-v=\"{value}\" title=\"{title}\">{}</td>",
        shown.join("<br/>")
    )
}

/// What a cell shows: the part, a mark where it is worse, and the dark days.
fn shown(month: &Month) -> String {
    let odds = if month.at_odds { "! " } else { "" };
    let sums = match month.outline.sums() {
        Some(sums) => sums,
        None => return format!("{odds}<span class=\"none\">{}</span>", month.outline.name()),
    };
    let part = month::shown(sums.percent(), "nothing owed");
    let mark = if is_worse(month) { "▼ " } else { "" };
    let dark = match sums.dark.len() {
        0 => String::new(),
        count => format!("<br/><span class=\"dark\">{count} dark</span>"),
    };
    format!("{odds}{mark}{part}{dark}")
}

/// The same in words.
fn told(month: &Month) -> String {
    match &month.outline.came {
        Came::Scored(sums) => {
            let (served, owed) = (grouped(sums.served), grouped(sums.owed));
            let change = month
                .change
                .as_ref()
                .map_or(String::new(), |change| format!(", {}", change.told()));
            format!(
                "{}: {served} of {owed} elements served, {}{change}",
                month.period,
                month.outline.name()
            )
        }
        Came::Unscored { why, .. } => {
            format!("{}: {}", month.outline.name(), why.replace('\n', ";"))
        }
    }
}

fn total(total: &Total) -> String {
    let part = month::shown(total.percent(), "–");
    let dark = total.told.map_or(0, |told| told.silent_days);
    format!("<td class=\"number\">{part}<br/><span class=\"dark\">{dark} dark</span></td>")
}

/// A column's width with the gap behind it, and a column's height.
const STEP: u32 = 12;
const BAR: u32 = 9;
const HIGH: u32 = 36;

/// What a bar is filled with that isn't full.
const PALE_PART: &str = "#f0cda9";

/// The small picture: a bar a month, filled from below as far as it was served, black from above as many of its days
/// were dark. The two never meet, since a dark day is served nothing.
fn picture(station: &Station, periods: &[Period]) -> String {
    let mut drawing = Drawing::default();
    for (x, period) in (1..).step_by(STEP as usize).zip(periods) {
        if let Some(month) = of_period(station, period).next() {
            drawing.begin_group(&told(month));
            column(&mut drawing, x, month);
            drawing.end_group();
        }
    }
    let (width, height) = (STEP * periods.len() as u32, HIGH + 2);
    let elements = drawing.elements();
    format!(
        "<svg class=\"bars\" width=\"{width}\" height=\"{height}\" viewBox=\"0 0 {width} {height}\" role=\"img\">\n{elements}</svg>"
    )
}

fn column(drawing: &mut Drawing, x: u32, month: &Month) {
    let framed = format!(r#"fill="{PAPER}" stroke="{INK}""#);
    let sums = match month.outline.sums() {
        Some(sums) => sums,
        None => {
            drawing.rect(
                (x, 1),
                (BAR, HIGH),
                &format!(r#"{framed} stroke-dasharray="2 2""#),
            );
            let (right, below) = (x + BAR, HIGH + 1);
            let cross = format!("M{x} 1L{right} {below}M{right} 1L{x} {below}");
            return drawing.path(&cross, &format!(r#"stroke="{INK}""#));
        }
    };
    drawing.rect((x, 1), (BAR, HIGH), &framed);
    let high = match sums.owed {
        0 => 0,
        owed => filled(sums.served, owed, u64::from(HIGH), 2) as u32,
    };
    // Light and dark, so that grey tells them apart too.
    let fill = if high == HIGH { FULL } else { PALE_PART };
    drawing.rect(
        (x, 1 + HIGH - high),
        (BAR, high),
        &format!(r#"fill="{fill}" stroke="{INK}""#),
    );
    let dark = HIGH * sums.dark.len() as u32 / month.outline.line.days.max(1);
    drawing.rect((x, 1), (BAR, dark), &format!(r#"fill="{INK}""#));
}

const LEGEND: &str = r#"<p class="legend">
<span>A bar a month: filled from below as far as what is owed was served, black from above as many days were dark; crossed out where there is no score.</span>
<span>▼ worse than the month before</span>
<span>! contradicted by another score</span>
</p>
"#;

/// A list below a heading, where there is anything in it.
fn list(heading: &str, lines: String) -> String {
    if lines.is_empty() {
        String::new()
    } else {
        format!("<h2>{heading}</h2>\n<ul>\n{lines}</ul>\n")
    }
}

fn line(station: &Station, month: &Month, text: &str) -> String {
    let (name, text) = (escaped(&station.name), escaped(text));
    format!("<li>{name}, {}: {text}</li>\n", month.period)
}

fn worse(history: &History) -> String {
    let lines = history.worse();
    let lines = lines.map(|(station, month, change)| line(station, month, &change.told()));
    list("What got worse", lines.collect())
}

fn unscored(history: &History) -> String {
    let unscored = history
        .months()
        .filter(|(_, month)| month.outline.sums().is_none());
    let lines = unscored.map(|(station, month)| line(station, month, &told(month)));
    list("No score", lines.collect())
}
