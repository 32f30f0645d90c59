//! All that can be asked of a session, asked of both programs' sessions.

use crate::case::{Agreement, Case};
use crate::commands;
use egretfold::headers::{
    SET_COND_OUT_FMT, SET_CONSTB_FMT, SET_CONSTF_FMT, SET_CONSTI_FMT, SET_INP_FMT, SET_INST_FMT,
    SET_OUT_FMT,
};
use egretfold::{lent, Edition, Owned, Party, View};
use second::lessees::Lessees;
use second::session::Format;
use second::Answer;

/// One session of each program, which get the same words.
#[derive(Clone)]
pub struct Both {
    pub product: egretfold::Session,
    pub second: second::session::Session,
}

/// What a session holds, from either program.
#[derive(Clone, Debug, PartialEq, Eq)]
pub struct Seen {
    pub taken: u64,
    pub stopped: bool,
    pub open: Option<(u32, u32)>,
    pub runs: u64,
    pub claims: u64,
    pub domain: Option<[u32; 4]>,
    /// In the order of `FORMATS`.
    pub formats: Vec<Answer<Option<Format>>>,
    pub output_mask: u32,
    pub conditional_mask: Option<u32>,
    pub test: Option<u32>,
    /// What the settings alone give a start: the product has it stored, the second program works it out.
    pub readiness: u32,
}

/// The headers that set one format each; outputs and inputs come behind them.
const FORMATS: [u32; 5] = [
    SET_INST_FMT,
    SET_CONSTF_FMT,
    SET_CONSTI_FMT,
    SET_CONSTB_FMT,
    SET_COND_OUT_FMT,
];

/// Header and number of every format that a session can hold.
fn formats() -> impl Iterator<Item = (u32, u32)> {
    let single = FORMATS.iter().map(|header| (*header, 0));
    let outputs = (0..4).map(|number| (SET_OUT_FMT, number));
    let inputs = (0..16).map(|number| (SET_INP_FMT, number));
    single.chain(outputs).chain(inputs)
}

impl Both {
    /// Both begin under the edition.
    pub fn new(edition: Edition) -> Both {
        let second = second::session::Session::new_in(edition.number());
        Both {
            product: egretfold::Session::new(edition),
            second: second.expect("document 02's editions are 1 and 2"),
        }
    }

    /// Compares all settings, and one question that may get a refusal.
    pub fn agree(&self, case: &mut Case, asked: impl Fn() -> String) -> Agreement {
        let asked = || format!("settings after {}", asked());
        case.agree(asked, &of_product(&self.product), &of_second(&self.second))?;
        self.question(case)
    }

    /// The format of any header and number at all.
    fn question(&self, case: &mut Case) -> Agreement {
        let random = &mut case.random;
        let header = match random.below(4) {
            0 => commands::known_header(random),
            1 => commands::unknown_header(random),
            _ => random.one_of(&[SET_OUT_FMT, SET_INP_FMT]),
        };
        let number = match random.below(4) {
            0 => random.word(),
            _ => random.below(18),
        };
        let asked = || format!("format of {header:#X}, number {number}");
        let product = format_of_product(self.product.view(), header, number);
        let expected = format_of_second(&self.second, header, number);
        // Not counted among the refusals: those tell what the words caused.
        case.agree(asked, &product, &expected)?;
        if product.is_err() {
            case.tally.mark("questions refused");
            let filled = [case.random.word(); 4];
            let mut room = filled;
            lent::session_format(self.product.view(), header, number, &mut room);
            case.untouched(asked, &room, &filled)?;
        }
        Ok(())
    }
}

impl Seen {
    /// What a party of two owns of it: the numbers that are its own with their bits of the mask, and what is party 0's
    /// alone only for that one.
    pub fn own(mut self, owned: Owned) -> Seen {
        for ((header, number), format) in formats().zip(&mut self.formats) {
            let kept = match header {
                SET_INST_FMT => true,
                SET_OUT_FMT => owned.output(number),
                SET_INP_FMT => owned.input(number),
                _ => owned.common,
            };
            if !kept {
                *format = Ok(None);
            }
        }
        let nibbles = (0..4).filter(|number| owned.output(*number));
        let bits: u32 = nibbles.map(|number| 0xF << (4 * number)).sum();
        self.output_mask &= bits;
        self.conditional_mask = self.conditional_mask.filter(|_| owned.common);
        self.test = self.test.filter(|_| owned.common);
        self
    }
}

pub fn of_product(session: &egretfold::Session) -> Seen {
    of_view(session.view())
}

/// What a party of the product is told.
pub fn of_view(party: View) -> Seen {
    let status = party.status();
    let format = |(header, number)| format_of_product(party, header, number);
    Seen {
        taken: u64::from(status.taken),
        stopped: status.stopped,
        open: status.open,
        runs: party.runs(),
        claims: party.claims(),
        domain: party.domain(),
        formats: formats().map(format).collect(),
        output_mask: party.output_mask(),
        conditional_mask: party.conditional_mask(),
        test: party.test(),
        readiness: status.readiness,
    }
}

/// What a party of the second program is told.
pub fn of_lessee(lessees: &Lessees, party: Party) -> Seen {
    let party = party == Party::One;
    let format = |(header, number)| match header {
        SET_INST_FMT => Ok(lessees.instructions(party)),
        SET_CONSTF_FMT => Ok(lessees.floats()),
        SET_CONSTI_FMT => Ok(lessees.integers()),
        SET_CONSTB_FMT => Ok(lessees.booleans()),
        SET_COND_OUT_FMT => Ok(lessees.conditional()),
        SET_OUT_FMT => lessees.output(number),
        _ => lessees.input(number),
    };
    Seen {
        taken: lessees.taken(party),
        stopped: lessees.stopped(party),
        open: lessees.open(party),
        runs: lessees.runs(party),
        claims: lessees.claims(party),
        domain: lessees.domain(party),
        formats: formats().map(format).collect(),
        output_mask: lessees.output_mask(),
        conditional_mask: lessees.conditional_mask(),
        test: lessees.test(),
        readiness: lessees.readiness(party),
    }
}

pub fn of_second(session: &second::session::Session) -> Seen {
    let format = |(header, number)| format_of_second(session, header, number);
    Seen {
        taken: session.taken(),
        stopped: session.stopped(),
        open: session.open(),
        runs: session.runs(),
        claims: session.claims(),
        domain: session.domain(),
        formats: formats().map(format).collect(),
        output_mask: session.output_mask(),
        conditional_mask: session.conditional_mask(),
        test: session.test(),
        readiness: session.readiness(),
    }
}

fn format_of_product(party: View, header: u32, number: u32) -> Answer<Option<Format>> {
    let set = party.format(header, number)?;
    Ok(set.map(|format| Format {
        base: format.base,
        format: format.format,
        height: format.height,
    }))
}

/// The second program has a function for each format; a header that sets none
/// gets 2, as the boundary's header file says.
fn format_of_second(
    session: &second::session::Session,
    header: u32,
    number: u32,
) -> Answer<Option<Format>> {
    match header {
        SET_INST_FMT => Ok(session.instructions()),
        SET_CONSTF_FMT => Ok(session.floats()),
        SET_CONSTI_FMT => Ok(session.integers()),
        SET_CONSTB_FMT => Ok(session.booleans()),
        SET_COND_OUT_FMT => Ok(session.conditional()),
        SET_OUT_FMT => session.output(number),
        SET_INP_FMT => session.input(number),
        _ => Err(2),
    }
}
