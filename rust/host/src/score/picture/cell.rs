//! A day's cell in the picture of a month.

use crate::common::digits::grouped;
use crate::score::month::{filled, Day, Served};
use crate::score::picture::svg::{Drawing, Style, FULL, INK, PALE_INK, PAPER, PART};

pub const WIDTH: u32 = 140;
pub const HEIGHT: u32 = 94;

/// Between the cell's frame and what stands in it.
const INSET: u32 = 8;
const INSIDE: u32 = WIDTH - 2 * INSET;

/// Draws a day with its upper left corner there. The first day of a month is drawn with
/// the month's name, and so is the first day of all.
pub fn draw(drawing: &mut Drawing, day: &Day, (x, y): (u32, u32), is_first: bool) {
    drawing.begin_day(day.number, &told(day));
    drawing.rect((x, y), (WIDTH, HEIGHT), ground(day.kind()));
    name(drawing, day, (x + INSET, y + 23), is_first);
    let fill = match day.kind() {
        Served::InFull => FULL,
        _ => PART,
    };
    let part = (day.served, day.owed);
    bar(drawing, (x + INSET, y + 31), (102, 14), part, fill);
    mark(drawing, day.kind(), (x + 124, y + 38));
    numbers(drawing, day, (x + INSET, y + 63));
    drawing.end_group();
}

/// A day in words.
pub fn told(day: &Day) -> String {
    let date = day.date.map_or(String::new(), |date| format!(", {date}"));
    let dark = if day.is_dark() { ", dark" } else { "" };
    format!(
        "day {}{date}: claimed {}, served {} of {}{dark}",
        day.number, day.claimed, day.served, day.owed
    )
}

/// The cell's frame and ground: a dark day's is hatched.
fn ground(kind: Served) -> &'static str {
    match kind {
        Served::InFull => r##"fill="#f0f7f3" stroke="#8aa598" stroke-width="1""##,
        Served::InPart => r##"fill="#fdf4e9" stroke="#b8651b" stroke-width="2""##,
        Served::Dark => r##"fill="url(#dark)" stroke="#000000" stroke-width="3""##,
        Served::NothingOwed => r##"fill="#ffffff" stroke="#8a8a8a" stroke-width="1""##,
    }
}

/// Large the day of the month, with the day's number small on the right; where no
/// dates are known, large the day's number.
fn name(drawing: &mut Drawing, day: &Day, (x, y): (u32, u32), is_first: bool) {
    let large = Style::of(20, INK).bold();
    let small = Style::of(12, PALE_INK);
    let date = match day.date {
        Some(date) => date,
        None => {
            let style = large.at_most(INSIDE).showing("number");
            return drawing.text((x, y), &day.number.to_string(), &style);
        }
    };
    let of_month = date.day.to_string();
    drawing.text((x, y), &of_month, &large.showing("date"));
    let mut room = 90;
    if is_first || date.day == 1 {
        let behind = x + 4 + 14 * of_month.len() as u32;
        let style = small.bold().showing("month");
        drawing.text((behind, y), &date.month_name()[..3], &style);
        room = 64;
    }
    let number = format!("day {}", day.number);
    let style = small.to_the_left().at_most(room).showing("number");
    drawing.text((x + INSIDE, y - 2), &number, &style);
}

/// Served, owed, and what else is to be known: claims past what is owed, or that the
/// log has no such day.
fn numbers(drawing: &mut Drawing, day: &Day, (x, y): (u32, u32)) {
    let (first, second) = match day.owed {
        0 => ("nothing owed".to_string(), String::new()),
        owed => (grouped(day.served), format!("of {}", grouped(owed))),
    };
    let third = if !day.in_log {
        "not in the log".to_string()
    } else if day.claimed > day.served {
        format!("claimed {}", grouped(day.claimed))
    } else {
        String::new()
    };
    let lines = [
        (first, 0, Style::of(16, INK).bold().showing("served")),
        (second, 14, Style::of(12, INK).showing("owed")),
        (third, 26, Style::of(11, PALE_INK).showing("claimed")),
    ];
    for (text, below, style) in lines {
        drawing.text((x, y + below), &text, &style.at_most(INSIDE));
    }
    if day.is_dark() {
        // Beside the 0 that was served.
        let label = Style::of(14, PAPER).bold().in_the_middle();
        let label = label.showing("dark");
        drawing.rect((x + 64, y - 15), (60, 18), r##"fill="#000000""##);
        drawing.text((x + 94, y - 1), "DARK", &label);
    }
}

/// The served part of what is owed, as a filled part of a frame; the frame is dashed
/// where nothing is owed.
pub fn bar(
    drawing: &mut Drawing,
    at: (u32, u32),
    (width, height): (u32, u32),
    (served, owed): (u64, u64),
    fill: &str,
) {
    let dashes = if owed == 0 { "3 3" } else { "none" };
    let frame =
        format!(r#"fill="{PAPER}" stroke="{INK}" stroke-width="1" stroke-dasharray="{dashes}""#);
    drawing.rect(at, (width, height), &frame);
    let part = filled(served, owed, u64::from(width), 3) as u32;
    if part > 0 {
        drawing.rect(at, (part, height), &format!(r#"fill="{fill}""#));
    }
}

/// A tick for a day served in full, half a disc for one in part, a cross for a dark
/// one; around this middle.
pub fn mark(drawing: &mut Drawing, kind: Served, (x, y): (u32, u32)) {
    let (left, right, top, bottom) = (x - 4, x + 4, y - 4, y + 4);
    let white = format!(r#"fill="none" stroke="{PAPER}" stroke-width="2.4""#);
    match kind {
        Served::InFull => {
            let tick = format!("M{left} {y} L{} {bottom} L{right} {top}", x - 1);
            drawing.circle((x, y), 8, &format!(r#"fill="{FULL}""#));
            drawing.path(&tick, &white);
        }
        Served::InPart => {
            let ring = format!(r#"fill="{PAPER}" stroke="{PART}" stroke-width="2""#);
            let half = format!("M{x} {} A7 7 0 0 0 {x} {} Z", y - 7, y + 7);
            drawing.circle((x, y), 7, &ring);
            drawing.path(&half, &format!(r#"fill="{PART}""#));
        }
        Served::Dark => {
            let cross = format!("M{left} {top} L{right} {bottom} M{left} {bottom} L{right} {top}");
            drawing.rect((x - 8, y - 8), (16, 16), r##"fill="#000000""##);
            drawing.path(&cross, &white);
        }
        Served::NothingOwed => {}
    }
}
