//! Why a survey was refused, with the quantities at odds, and what to try.

use crate::common::kinds::Address;
use crate::common::names::FormatWord;
use crate::common::text;
use crate::explain::cause::{self, Refused};
use crate::survey::{Asked, MOST_BYTES, MOST_PAIRS};
use egretfold::Refusal;

const SET: &str = "put set_cond_out_fmt BASE FORMAT HEIGHT and set_cond_test TEST into the stream";
const UINT16: &str = "UINT16_1 has code 0 in bits 26:24 of the format word";
const ENDS: &str = "a domain is I0,J0,I1,J1, both ends included";

pub fn told(refusal: Refusal, asked: &Asked) -> (Refused, Option<String>) {
    let number = refusal.number();
    let (cause, hint) = match number {
        7 => (Some(missing(asked)), Some(SET.to_string())),
        3 => (format(asked), Some(UINT16.to_string())),
        5 => (cause::crossed(&asked.domain), Some(ENDS.to_string())),
        10 => (outside(asked), whole(asked)),
        11 => memory(asked),
        _ => (None, None),
    };
    (cause::refused(number, cause), hint)
}

fn missing(asked: &Asked) -> String {
    let buffer = "a conditional buffer (set_cond_out_fmt)";
    let test = "a conditional test (set_cond_test)";
    match (asked.buffer.is_some(), asked.session.test().is_some()) {
        (false, false) => format!("the settings have neither {buffer} nor {test}"),
        (false, true) => format!("the settings have no {}", &buffer[2..]),
        _ => format!("the settings have no {}", &test[2..]),
    }
}

fn format(asked: &Asked) -> Option<String> {
    let name = FormatWord(asked.buffer?.format).element()?.name;
    Some(format!(
        "the conditional buffer is {name}, and the unit takes UINT16_1 alone"
    ))
}

fn outside(asked: &Asked) -> Option<String> {
    let layout = asked.layout()?;
    let [_, _, i1, j1] = asked.domain;
    let step = egretfold::layout(&layout).ok()?.step;
    Some(if i1 >= step {
        format!("outside the buffer's window: i1 {i1} is not below row step {step}")
    } else {
        format!(
            "outside the buffer's window: j1 {j1} is not below height {}",
            layout.height
        )
    })
}

/// The whole window, to try instead.
fn whole(asked: &Asked) -> Option<String> {
    let layout = asked.layout()?;
    let step = egretfold::layout(&layout).ok()?.step;
    let (i1, j1) = (step - 1, layout.height - 1);
    Some(format!("the whole window is --domain 0,0,{i1},{j1}"))
}

/// 11: too many pairs, a dump that ends too high, or one that doesn't hold them all.
fn memory(asked: &Asked) -> (Option<String>, Option<String>) {
    let (at, length) = (asked.at, asked.dump.len() as u64);
    let pairs = asked.pairs().unwrap_or(0);
    if pairs > MOST_PAIRS {
        let cause = format!(
            "{pairs} pairs take {} bytes, over {MOST_BYTES}, the most that is lent",
            2 * pairs
        );
        return (Some(cause), Some(parts(asked)));
    }
    if u64::from(at) + length > 1 << 32 {
        let cause = format!("memory from {} on ends above the last address", Address(at));
        let hint = "--at is the address of the dump's first byte".to_string();
        return (Some(cause), Some(hint));
    }
    let (low, high) = match asked.held() {
        Some(range) => range,
        None => return (None, None),
    };
    let needed = u64::from(high - low) + 1;
    let elements = format!(
        "the domain's elements stand from {} to {}",
        Address(low),
        Address(high)
    );
    let dump = match length {
        0 => "the dump is empty".to_string(),
        _ => format!(
            "the dump has {} to {:08X}",
            Address(at),
            u64::from(at) + length - 1
        ),
    };
    if needed > MOST_BYTES as u64 {
        let cause = format!("{elements}, {needed} bytes, over {MOST_BYTES}, the most that is lent");
        return (Some(cause), Some(parts(asked)));
    }
    let hint = "give a dump that holds them, its --at, or a smaller --domain".to_string();
    (Some(format!("{elements}, and {dump}")), Some(hint))
}

/// A first part of the domain that is small enough, as far as its pairs go.
fn parts(asked: &Asked) -> String {
    let [i0, j0, i1, j1] = asked.domain;
    let columns = asked.sides().map_or(1, |(columns, _)| columns);
    // Half of what the pairs alone would allow: rows may be further apart.
    let rows = (MOST_PAIRS / 2 / columns.max(1)).max(1) as u32;
    let last = j1.min(j0.saturating_add(rows - 1));
    let rows = text::count(u64::from(last - j0) + 1, "row");
    format!("survey it in parts, such as {rows} at a time: --domain {i0},{j0},{i1},{last}")
}
