//! What the stations of each lessee come to, where there are several.

use crate::common::digits::grouped;
use crate::fleet::lessees::{are_told, Subtotal};
use crate::fleet::month::Fleet;
use crate::fleet::page::{escaped, fits};
use crate::score::month::shown;

pub fn table(fleet: &Fleet) -> String {
    if !are_told(&fleet.subtotals) {
        return String::new();
    }
    let heads = [
        "stations",
        "served",
        "owed",
        "part",
        "dark days",
        "full days",
        "short",
    ];
    let heads = heads
        .map(|name| format!("<th scope=\"col\">{name}</th>"))
        .concat();
    let rows: String = fleet.subtotals.iter().map(row).collect();
    let fits = fits(fleet.subtotals.len());
    format!(
        "<h2>Lessees</h2>\n<div class=\"wide\">\n<table class=\"stations{fits}\">\n<thead><tr><th scope=\"col\" class=\"text\">lessee</th>{heads}</tr></thead>\n<tbody>\n{rows}</tbody>\n</table>\n</div>\n"
    )
}

fn row(subtotal: &Subtotal) -> String {
    let name = match &subtotal.lessee {
        Some(name) => escaped(name),
        None => "(none)".to_string(),
    };
    let numbers = [
        subtotal.stations.to_string(),
        grouped(subtotal.told.served),
        grouped(subtotal.told.owed),
        shown(subtotal.percent(), "–"),
        subtotal.told.silent_days.to_string(),
        subtotal.full_days.to_string(),
        subtotal.short.to_string(),
    ];
    let numbers = numbers.map(|number| format!(r#"<td class="number">{number}</td>"#));
    let numbers = numbers.concat();
    format!("<tr><td class=\"text\">{name}</td>{numbers}</tr>\n")
}
