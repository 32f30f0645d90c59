//! What the starts of a stream met, counted for the tests to look at: outputs that
//! are silent or partly masked, and silent ones that would else be in the way.

use crate::commands;
use crate::tally::Tally;
use egretfold::headers::START_PROGRAM;
use second::layout::judge;
use second::session::{Format, Reply, Session};

/// A set output's format, and the bits that the mask has for it.
struct Output {
    format: Format,
    nibble: u32,
    /// The bits for channels that its format has.
    unmasked: u32,
}

/// Counts a start that has just passed.
pub fn count(tally: &mut Tally, session: &Session) {
    let (silent, counted): (Vec<Output>, Vec<Output>) =
        outputs(session).partition(|output| output.unmasked == 0);
    match (silent.is_empty(), counted.is_empty()) {
        (false, true) => tally.mark("starts with all outputs silent"),
        (false, false) => tally.mark("starts with some outputs silent"),
        _ => {}
    }
    if counted.iter().any(Output::is_partly_masked) {
        tally.mark("starts with an output partly masked");
    }
    if silent.iter().any(|output| output.nibble != 0) {
        tally.mark("starts with bits for channels that a silent output lacks");
    }
    if silent.iter().any(|output| !output.holds(session.domain())) {
        tally.mark("starts with the domain outside a silent output");
    }
    let all: Vec<&Output> = silent.iter().chain(&counted).collect();
    if any_share_a_byte(&all) {
        tally.mark("starts with a silent output over another output");
    }
}

/// Counts every start that passes in a session with these words.
pub fn of_words(tally: &mut Tally, words: impl Iterator<Item = u32>) {
    let mut session = Session::new();
    for word in words {
        match session.word(word) {
            Ok(Reply::Done(command)) if command.header == START_PROGRAM => count(tally, &session),
            Ok(_) => {}
            Err(_) => return,
        }
    }
}

fn outputs(session: &Session) -> impl Iterator<Item = Output> + '_ {
    let mask = session.output_mask();
    (0..4).filter_map(move |number| {
        let format = session.output(number).ok().flatten()?;
        Some(Output {
            format,
            nibble: mask >> (4 * number) & 0xF,
            unmasked: commands::unmasked(mask, number, format.format),
        })
    })
}

impl Output {
    fn is_partly_masked(&self) -> bool {
        self.unmasked != commands::channels(self.format.format)
    }

    fn holds(&self, domain: Option<[u32; 4]>) -> bool {
        let (step, _) = self.step_and_span();
        domain.map_or(true, |[_, _, i1, j1]| i1 < step && j1 < self.format.height)
    }

    fn shares_a_byte_with(&self, other: &Output) -> bool {
        let end = |output: &Output| u64::from(output.format.base) + output.step_and_span().1;
        u64::from(self.format.base) < end(other) && u64::from(other.format.base) < end(self)
    }

    fn step_and_span(&self) -> (u32, u64) {
        let Format {
            base,
            format,
            height,
        } = self.format;
        let window = judge(&commands::layout(base, format, height));
        window.map_or((0, 0), |window| (window.step, window.span))
    }
}

/// In a start that passed, one of two that do is silent.
fn any_share_a_byte(outputs: &[&Output]) -> bool {
    outputs.iter().enumerate().any(|(place, output)| {
        let mut later = outputs[place + 1..].iter();
        later.any(|other| output.shares_a_byte_with(other))
    })
}
