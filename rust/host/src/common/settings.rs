//! A party's settings as the product tells them, each with its name, and how they
//! stand to one another. Of two parties each has the numbers that it owns; the one of
//! a session owns all.

use crate::common::kinds::Address;
use crate::common::names::{self, FormatWord, Kind, Line};
use crate::common::text;
use egretfold::{headers, Edition, Format, Layout, Session, View};

#[derive(Clone, Debug, PartialEq, Eq)]
pub enum Value {
    /// Of an input or the conditional output, over which a domain is laid.
    Array(Format),
    /// Of an output, over which a domain is laid, and whether it is silent under
    /// the session's mask.
    Output {
        format: Format,
        silent: bool,
    },
    /// Of instructions or constants.
    Store(Format),
    Domain([u32; 4]),
    OutputMask {
        mask: u32,
        /// The outputs whose bits they are.
        outputs: Vec<u32>,
    },
    ConditionalMask(u32),
    Test(u32),
}

#[derive(Clone, Debug, PartialEq, Eq)]
pub struct Setting {
    pub name: String,
    pub value: Value,
}

/// The formats that have no number, by their commands.
const SINGLE: [(u32, &str); 4] = [
    (headers::SET_INST_FMT, "instructions"),
    (headers::SET_CONSTF_FMT, "float constants"),
    (headers::SET_CONSTI_FMT, "integer constants"),
    (headers::SET_CONSTB_FMT, "boolean constants"),
];

/// All that is set, in an order of its own: formats, domain, masks, test.
pub fn all(party: View) -> Vec<Setting> {
    let mut list = Vec::new();
    let mut put = |name: String, value: Option<Value>| {
        list.extend(value.map(|value| Setting { name, value }));
    };
    let owned = party.owned();
    let store = |header| own_format(party, header, 0).map(Value::Store);
    let array = |header, number| own_format(party, header, number).map(Value::Array);
    let mask = party.output_mask();
    let output = |number| {
        let format = own_format(party, headers::SET_OUT_FMT, number)?;
        let silent = is_silent(mask, number, &format);
        Some(Value::Output { format, silent })
    };
    for (header, name) in SINGLE {
        put(name.into(), store(header));
    }
    for number in 0..names::INPUTS {
        put(
            format!("input {number}"),
            array(headers::SET_INP_FMT, number),
        );
    }
    for number in 0..names::OUTPUTS {
        put(format!("output {number}"), output(number));
    }
    put(
        "conditional output".into(),
        array(headers::SET_COND_OUT_FMT, 0),
    );
    put("domain".into(), party.domain().map(Value::Domain));
    let outputs: Vec<u32> = (0..names::OUTPUTS).filter(|n| owned.output(*n)).collect();
    let own_bits: u32 = outputs.iter().map(|number| 0xF << (4 * number)).sum();
    let mask = mask & own_bits;
    let output_mask = (!outputs.is_empty()).then_some(Value::OutputMask { mask, outputs });
    put("output mask".into(), output_mask);
    let conditional = party.conditional_mask().filter(|_| owned.common);
    put(
        "conditional mask".into(),
        conditional.map(Value::ConditionalMask),
    );
    let test = party.test().filter(|_| owned.common);
    put("test".into(), test.map(Value::Test));
    list
}

/// A format that is set, where the party owns it.
fn own_format(party: View, header: u32, number: u32) -> Option<Format> {
    let owned = party.owned();
    let own = match header {
        headers::SET_INST_FMT => true,
        headers::SET_INP_FMT => owned.input(number),
        headers::SET_OUT_FMT => owned.output(number),
        _ => owned.common,
    };
    let set = party.format(header, number).ok().flatten();
    set.filter(|_| own)
}

/// The party's outputs that are set, silent ones too, with their numbers.
pub fn outputs(party: View) -> Vec<(u32, Format)> {
    let output = |n| own_format(party, headers::SET_OUT_FMT, n).map(|format| (n, format));
    (0..names::OUTPUTS).filter_map(output).collect()
}

/// The set outputs that aren't silent: those that refusals 8 and 9 ask about and
/// that claim.
pub fn counted(party: View) -> Vec<(u32, Format)> {
    let mask = party.output_mask();
    let mut list = outputs(party);
    list.retain(|(number, format)| !is_silent(mask, *number, format));
    list
}

/// Document 02's "silent": the mask has no bit for a channel that the output's
/// format has.
pub fn is_silent(mask: u32, number: u32, format: &Format) -> bool {
    unmasked(mask, number, format) == 0
}

/// The mask of a new session.
const FULL_MASK: u32 = 0xFFFF;

/// The channels that an output's format has.
pub fn channels(format: &Format) -> u64 {
    unmasked(FULL_MASK, 0, format)
}

/// The channels that the mask leaves of those that an output's format has, by the
/// product: what it claims under edition 2 for one pair, with no other output set.
pub fn unmasked(mask: u32, number: u32, format: &Format) -> u64 {
    let mut alone = Session::new(Edition::Second);
    // A start asks for instructions, and looks no further at them.
    alone.feed(&[headers::SET_INST_FMT, 0, 0x20]);
    let Format {
        base,
        format,
        height,
    } = *format;
    alone.feed(&[headers::SET_OUT_FMT, number, base, format, height]);
    alone.feed(&[headers::SET_OUT_MASK, mask]);
    alone.feed(&[headers::SET_DOMAIN, 0, 0, 0, 0]);
    alone.feed(&[headers::START_PROGRAM, 0]);
    alone.claims()
}

pub fn layout(format: &Format) -> Layout {
    text::layout(format.base, format.format, format.height)
}

/// The layout that a command's parameters describe, where it sets a format.
/// Instructions and constants have height 1.
pub fn layout_of(line: &Line, fields: &[u32]) -> Option<Layout> {
    let field = |kind| {
        let place = line.parameters.iter().position(|k| *k == kind)?;
        fields.get(place).copied()
    };
    let height = if line.parameters.contains(&Kind::Height) {
        field(Kind::Height)?
    } else {
        1
    };
    Some(text::layout(
        field(Kind::Base)?,
        field(Kind::Format)?,
        height,
    ))
}

impl Setting {
    /// The setting's value in words.
    pub fn words(&self) -> String {
        match &self.value {
            Value::Array(format) | Value::Store(format) => format_words(format),
            Value::Output { format, silent } => {
                if *silent {
                    format!("{}, silent: {}", format_words(format), masked_off(format))
                } else {
                    format_words(format)
                }
            }
            Value::Domain(domain) => domain_words(domain),
            Value::OutputMask { mask, outputs } => {
                format!("{mask:04X}: {}", text::mask_of(*mask, outputs))
            }
            Value::ConditionalMask(mask) => mask.to_string(),
            Value::Test(test) => test.to_string(),
        }
    }
}

fn format_words(format: &Format) -> String {
    let (base, word) = (Address(format.base), FormatWord(format.format));
    let name = text::format_name(word);
    let window = window(&layout(format));
    format!("base {base}, {name}, pitch {}{window}", word.pitch())
}

/// Why a silent output is silent: all channels that its format has.
fn masked_off(format: &Format) -> &'static str {
    match channels(format) {
        1 => "its channel 0 is masked off",
        2 => "its channels 0 and 1 are masked off",
        _ => "its channels 0 to 3 are masked off",
    }
}

/// ", window 96 x 18, bytes 00000800 to 000037FF", by the product.
pub fn window(layout: &Layout) -> String {
    match egretfold::layout(layout) {
        Ok(window) => {
            let last = u64::from(layout.base) + u64::from(window.span) - 1;
            let first = Address(layout.base);
            let (step, height) = (window.step, layout.height);
            format!(", window {step} x {height}, bytes {first} to {last:08X}")
        }
        Err(_) => String::new(),
    }
}

pub fn domain_words(domain: &[u32; 4]) -> String {
    let [i0, j0, i1, j1] = *domain;
    let (wide, high) = sides(domain);
    let pairs = text::count(pairs(domain), "pair");
    format!("({i0}, {j0}) to ({i1}, {j1}), {wide} x {high} = {pairs}")
}

/// How many columns and rows an accepted domain has.
pub fn sides(domain: &[u32; 4]) -> (u32, u32) {
    let [i0, j0, i1, j1] = *domain;
    (i1 - i0 + 1, j1 - j0 + 1)
}

/// How many pairs an accepted domain has.
pub fn pairs(domain: &[u32; 4]) -> u64 {
    let (wide, high) = sides(domain);
    u64::from(wide) * u64::from(high)
}

/// Where the domain leaves the window of an output that counts: refusal 8's two
/// quantities.
pub fn outside(party: View) -> Option<String> {
    let [_, _, i1, j1] = party.domain()?;
    counted(party).iter().find_map(|(number, format)| {
        let step = egretfold::layout(&layout(format)).ok()?.step;
        let height = format.height;
        if i1 >= step {
            Some(format!(
                "the domain's i1 {i1} is not below output {number}'s row step {step}"
            ))
        } else if j1 >= height {
            Some(format!(
                "the domain's j1 {j1} is not below output {number}'s height {height}"
            ))
        } else {
            None
        }
    })
}

/// The first two outputs that count and whose spans meet: refusal 9's two
/// quantities.
pub fn shared_bytes(party: View) -> Option<String> {
    let bytes = |(number, format): (u32, Format)| {
        let window = egretfold::layout(&layout(&format)).ok()?;
        let first = u64::from(format.base);
        Some((number, first, first + u64::from(window.span) - 1))
    };
    let spans: Vec<(u32, u64, u64)> = counted(party).into_iter().filter_map(bytes).collect();
    for (place, (a, a_first, a_last)) in spans.iter().enumerate() {
        for (b, b_first, b_last) in &spans[place + 1..] {
            if a_first.max(b_first) <= a_last.min(b_last) {
                return Some(format!(
                    "spans share bytes: output {a} {a_first:08X} to {a_last:08X}, output {b} {b_first:08X} to {b_last:08X}"
                ));
            }
        }
    }
    None
}
