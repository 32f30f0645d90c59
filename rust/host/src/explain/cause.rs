//! Why something was refused, with the quantities at odds. The number is the
//! product's; here it is only put in words, from what the user gave.

use crate::address::tiles;
use crate::address::work;
use crate::common::kinds::{Address, Word};
use crate::common::names::{self, FormatWord, Kind, Line};
use crate::common::settings;
use crate::common::text;
use crate::explain::refusals;
use crate::score::asked::LeaseLine;
use egretfold::{headers, Layout, Owners, View};
use std::fmt;

const MEMORY_END: u64 = 1 << 32;
const LARGEST: u32 = 4096;

/// The bounds of a lease line.
const MOST_DAYS: u32 = 31;
const MOST_OWED: u32 = 100_000_000;

/// A refusal in words: "refused 6, window rule: pitch 28 gives row step 0".
#[derive(Clone, Debug, PartialEq, Eq)]
pub struct Refused {
    pub number: u32,
    pub cause: String,
}

impl fmt::Display for Refused {
    fn fmt(&self, f: &mut fmt::Formatter) -> fmt::Result {
        write!(f, "refused {}, {}", self.number, self.cause)
    }
}

/// The number with its cause, which is the table's where no better one is known.
pub fn refused(number: impl Into<u32>, cause: Option<String>) -> Refused {
    let number = number.into();
    let cause = cause.unwrap_or_else(|| refusals::cause(number).to_string());
    Refused { number, cause }
}

/// 21 of a lease line: the first number that is out of its bounds.
pub fn of_lease(line: &LeaseLine) -> Option<String> {
    let LeaseLine {
        first_day,
        days,
        owed,
    } = *line;
    if days == 0 {
        return Some("0 days are below 1".to_string());
    }
    if days > MOST_DAYS {
        return Some(format!("{days} days are over {MOST_DAYS}"));
    }
    if owed > MOST_OWED {
        return Some(format!("{owed} elements owed a day are over {MOST_OWED}"));
    }
    let last = u64::from(first_day) + u64::from(days) - 1;
    let count = text::count(u64::from(days), "day");
    (last > u64::from(u32::MAX)).then(|| {
        format!(
            "{count} from day {first_day} on end at day {last}, which is over {}",
            u32::MAX
        )
    })
}

/// 3 of owners: a bit for a number that there isn't.
pub fn of_owners(owners: &Owners) -> Option<String> {
    let above = |name: &str, bits: u32, count: u32| {
        let over = bits >> count != 0;
        over.then(|| format!("{name}s {bits:X} have a bit above {name} {}", count - 1))
    };
    above("input", owners.inputs, names::INPUTS)
        .or_else(|| above("output", owners.outputs, names::OUTPUTS))
}

/// 3 or 6 of a layout.
pub fn of_layout(number: u32, layout: &Layout) -> Option<String> {
    match number {
        3 => malformed(layout),
        6 => window_rule(layout),
        _ => None,
    }
}

/// 3, 6 or 10 of a pair.
pub fn of_pair(number: impl Into<u32>, layout: &Layout, x: u32, y: u32) -> Option<String> {
    let number = number.into();
    if number != 10 {
        return of_layout(number, layout);
    }
    let step = tiles::row_step(layout)?;
    Some(if x >= step {
        format!("outside the window: x {x} is not below row step {step}")
    } else {
        format!(
            "outside the window: y {y} is not below height {}",
            layout.height
        )
    })
}

/// 3, 6 or 12 of an address.
pub fn of_address(number: impl Into<u32>, layout: &Layout, address: u32) -> Option<String> {
    let number = number.into();
    match number {
        12 => Some(format!("no pair owns it: {}", unowned(layout, address)?)),
        _ => of_layout(number, layout),
    }
}

/// Where an address that no pair owns lies.
pub fn unowned(layout: &Layout, address: u32) -> Option<String> {
    let at = Address(address);
    let end = u64::from(layout.base) + tiles::span(layout)?;
    if address < layout.base {
        return Some(format!("{at} is below base {}", Address(layout.base)));
    }
    if u64::from(address) >= end {
        return Some(format!("{at} is past the last byte {:08X}", end - 1));
    }
    let row = work::back(layout, address)?.y;
    let height = layout.height;
    Some(format!(
        "{at} is in row {row}, which is not below height {height}"
    ))
}

fn malformed(layout: &Layout) -> Option<String> {
    let (size, base, pitch) = (layout.size, layout.base, layout.pitch);
    if tiles::tile_of(size).is_none() {
        return Some(format!("size {size} is none of 1, 2, 4, 8, 16"));
    }
    if base % 2048 != 0 {
        let (at, over) = (Address(base), base % 2048);
        return Some(format!("base {at} is {over} over a multiple of 2048"));
    }
    if pitch > 8188 {
        return Some(format!("pitch {pitch} is over 8188"));
    }
    let over = pitch % 4;
    (over != 0).then(|| format!("pitch {pitch} is {over} over a multiple of 4"))
}

fn window_rule(layout: &Layout) -> Option<String> {
    let (pitch, height) = (layout.pitch, layout.height);
    let step = tiles::row_step(layout)?;
    if step == 0 {
        return Some(format!("window rule: pitch {pitch} gives row step 0"));
    }
    if step > LARGEST {
        return Some(format!(
            "window rule: pitch {pitch} gives row step {step}, over {LARGEST}"
        ));
    }
    if height == 0 || height > LARGEST {
        return Some(format!(
            "window rule: height {height} is not 1 to {LARGEST}"
        ));
    }
    let span = tiles::span(layout)?;
    let end = u64::from(layout.base) + span;
    let base = Address(layout.base);
    (end > MEMORY_END).then(|| {
        format!("window rule: base {base} plus span {span} ends at {end:X}, over {MEMORY_END:X}")
    })
}

/// The refusal of the last of a party's open command's words. The party's settings are
/// those that the word met, as a refusal leaves them.
pub fn of_word(number: impl Into<u32>, party: View, open: &[u32]) -> Option<String> {
    let number = number.into();
    let word = *open.last()?;
    if number == 2 {
        let house = house_word(word).unwrap_or_default();
        return Some(format!(
            "header {} stands in no line of the command table{house}",
            Word(word)
        ));
    }
    let line = names::command(open[0])?;
    if number == 20 {
        return another_owns(party, line, open.get(1).copied());
    }
    let kind = *line.parameters.get(open.len().checked_sub(2)?)?;
    match number {
        3 => fault(line.header, kind, word),
        4 => too_large(kind, word),
        7..=9 => of_start(number, party),
        _ => of_command(number, line, &open[1..]),
    }
}

/// 20: at a header that sets what is party 0's, or at a number of the other party's.
fn another_owns(party: View, line: &Line, number: Option<u32>) -> Option<String> {
    let owner = u8::from(party.owned().common);
    let kind = line.parameters.first()?.name();
    Some(match number {
        Some(number) => format!("{kind} {number} is party {owner}'s"),
        None => format!("{} sets what is party {owner}'s", line.name),
    })
}

/// What the settings refuse a start with: 7, 8 or 9.
pub fn of_start(number: u32, party: View) -> Option<String> {
    match number {
        7 => Some(missing(party)),
        8 => settings::outside(party),
        9 => settings::shared_bytes(party),
        _ => None,
    }
}

/// Document 01's house words, in whose place the guide has others.
fn house_word(word: u32) -> Option<String> {
    let header = match word {
        0xC003_8000 => headers::SET_DOMAIN,
        0xC000_8100 => headers::START_PROGRAM,
        _ => return None,
    };
    let name = names::command_name(header);
    Some(format!(": the guide's word for {name} is {}", Word(header)))
}

/// The writer's refusal of a command: 3 to 6, by all its fields.
pub fn of_command(number: impl Into<u32>, line: &Line, fields: &[u32]) -> Option<String> {
    let number = number.into();
    let mut each = line.parameters.iter().zip(fields);
    match number {
        3 => each.find_map(|(kind, word)| fault(line.header, *kind, *word)),
        4 => each.find_map(|(kind, word)| too_large(*kind, *word)),
        5 => crossed(fields),
        6 => window_rule(&settings::layout_of(line, fields)?),
        _ => None,
    }
}

/// What document 01 gives 3 for in a parameter, if there is anything.
fn fault(header: u32, kind: Kind, word: u32) -> Option<String> {
    let code = kind == Kind::Format && FormatWord(word).element().is_none();
    if word & !kind.named_bits() != 0 || code {
        return Some(reserved(kind, word));
    }
    superfine_channels(header, kind, word)
}

fn too_large(kind: Kind, word: u32) -> Option<String> {
    let count = match kind {
        Kind::Input => names::INPUTS,
        Kind::Output => names::OUTPUTS,
        _ => return None,
    };
    let most = count - 1;
    (word > most).then(|| format!("{} number {word} is over {most}", kind.name()))
}

/// A parameter with a bit or code that document 01 doesn't name.
pub fn reserved(kind: Kind, word: u32) -> String {
    let (name, bits) = (kind.name(), word & !kind.named_bits());
    let shown = Word(word);
    match kind {
        Kind::Format if bits == 0 => {
            let code = FormatWord(word).code();
            format!("format {shown} has code {code}, over 4")
        }
        Kind::Reserved => format!("the reserved parameter is {shown}, not 0"),
        _ => format!("{name} {shown} has reserved bits {}", Word(bits)),
    }
}

/// The superfine rule of inputs, where it is what the word breaks.
fn superfine_channels(header: u32, kind: Kind, word: u32) -> Option<String> {
    let format = FormatWord(word);
    let element = format.element()?;
    let rule = header == headers::SET_INP_FMT && kind == Kind::Format;
    (rule && format.superfine() && element.channels > 1).then(|| {
        let (name, channels) = (element.name, element.channels);
        format!("superfine on an input of {name}, which has {channels} channels, not 1")
    })
}

/// 5 of a domain: the ends that are crossed.
pub fn crossed(fields: &[u32]) -> Option<String> {
    let [i0, j0, i1, j1] = *<&[u32; 4]>::try_from(fields).ok()?;
    if i0 > i1 {
        Some(format!("i0 {i0} is over i1 {i1}"))
    } else if j0 > j1 {
        Some(format!("j0 {j0} is over j1 {j1}"))
    } else {
        None
    }
}

fn missing(party: View) -> String {
    let outputs = settings::outputs(party).len() as u64;
    let mut missing = Vec::new();
    if party.domain().is_none() {
        missing.push("a domain");
    }
    if !matches!(party.format(headers::SET_INST_FMT, 0), Ok(Some(_))) {
        missing.push("an instruction format");
    }
    if outputs == 0 {
        missing.push("any output");
    }
    let set = text::count(outputs, "output");
    format!(
        "start without {} ({set} set)",
        missing.join(" and without ")
    )
}
