//! The card of a month that has no score: it stands where an earlier card may have
//! stood, so that none is left that is no longer true.

use crate::common::digits::grouped;
use crate::common::text;
use crate::score::asked::Unscored;
use crate::score::picture::foot::Foot;
use crate::score::picture::notice::Notice;
use crate::score::picture::svg::{Drawing, Style, INK, PAPER};
use crate::score::picture::{
    draw_lines, head_lines, month_of, more_lines, Framed, LEFT, RIGHT, TITLE, WIDTH,
};

pub fn drawn(unscored: &Unscored) -> Framed {
    let told = &unscored.why;
    let why: Vec<String> = told.lines().map(|line| line.trim().into()).collect();
    let notice = Notice::new("There is no score, because", &why);
    let owed = grouped(u64::from(unscored.line.owed));
    let (days, edition) = (days(unscored), unscored.edition);
    let lease = format!("{days}, {owed} elements owed a day, edition {edition}");
    let lines = head_lines(&unscored.issue, lease, &unscored.inputs);
    let notice_at = 150 + more_lines(&lines);
    let below = notice_at + notice.height();
    let foot = Foot::unsigned(&unscored.issue);
    let height = below + foot.height();
    let mut drawing = Drawing::default();
    drawing.rect((0, 0), (WIDTH, height), &format!(r#"fill="{PAPER}""#));
    let title = title(unscored);
    drawing.text((LEFT, 58), &title, &TITLE.at_most(600));
    draw_lines(&mut drawing, &lines, 0);
    let width = 280;
    let look = format!(r#"fill="{INK}" stroke="{INK}" stroke-width="4""#);
    let style = Style::of(26, PAPER).bold().in_the_middle();
    drawing.rect((RIGHT - width, 30), (width, 46), &look);
    drawing.text((RIGHT - width / 2, 62), unscored.name(), &style);
    notice.draw(&mut drawing, notice_at);
    foot.draw(&mut drawing, below);
    Framed {
        title,
        told: format!("{}: {told}", unscored.name()),
        height,
        elements: drawing.elements(),
    }
}

/// The month, or the lease's days.
pub fn title(unscored: &Unscored) -> String {
    unscored.from.map_or_else(|| days(unscored), month_of)
}

/// The lease's days, also of a line that is refused.
fn days(unscored: &Unscored) -> String {
    let days = text::count(u64::from(unscored.line.days), "day");
    format!("{days} from day {} on", unscored.line.first_day)
}

/// A text that tells of inputs by their paths, with their names in place of these.
pub fn without_folders(text: &str, inputs: &[String]) -> String {
    inputs.iter().fold(text.to_string(), |text, path| {
        let name = path.rsplit('/').next().unwrap_or(path);
        if name.is_empty() {
            text
        } else {
            text.replace(path.as_str(), name)
        }
    })
}
