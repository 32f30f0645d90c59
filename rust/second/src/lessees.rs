//! Document 02, request 9, "Two lessees on one card": a session that two parties
//! share.
//!
//! All settings stand here in one place, as on the card, and every step says whose
//! they are. The unit tests hold this against two single sessions, of which each
//! gets one party's words and knows nothing of the other.

use crate::command::{format_of, judge_together, judge_word, line_of, Command, Kind, Line};
use crate::command::{
    FormatCode, SET_COND_OUT_FMT, SET_COND_OUT_MASK, SET_COND_TEST, SET_CONSTB_FMT, SET_CONSTF_FMT,
    SET_CONSTI_FMT, SET_DOMAIN, SET_INP_FMT, SET_INST_FMT, SET_OUT_FMT, SET_OUT_MASK,
    START_PROGRAM,
};
use crate::session::{domain_is_inside, judge_spans, Fed, Format, Reply};
use crate::session::{FIRST_MASK, MOST_WORDS};
use crate::{bits, Answer};

/// What belongs to party 0 alone: "Constant formats and the conditional buffer,
/// mask and test". Party 1's header setting them gets 20.
const OF_PARTY_0: [u32; 6] = [
    SET_CONSTF_FMT,
    SET_CONSTI_FMT,
    SET_CONSTB_FMT,
    SET_COND_OUT_FMT,
    SET_COND_OUT_MASK,
    SET_COND_TEST,
];

/// What each party has for itself.
#[derive(Clone, Debug, PartialEq, Eq)]
struct Party {
    taken: u64,
    stopped: bool,
    /// The open command's header and the parameters taken so far.
    open: Option<(u32, Vec<u32>)>,
    domain: Option<[u32; 4]>,
    instructions: Option<Format>,
    runs: u64,
    claims: u64,
}

/// A session of two parties. A party is one bit: false is party 0, true party 1.
#[derive(Clone, Debug, PartialEq, Eq)]
pub struct Lessees {
    /// 1 or 2, from document 02's request 10.
    edition: u32,
    /// Bit n is the party that owns input n.
    owners_of_inputs: u32,
    /// Bit n is the party that owns output n, and with it its four mask bits.
    owners_of_outputs: u32,
    parties: [Party; 2],
    inputs: [Option<Format>; 16],
    outputs: [Option<Format>; 4],
    output_mask: u32,
    floats: Option<Format>,
    integers: Option<Format>,
    booleans: Option<Format>,
    conditional: Option<Format>,
    conditional_mask: Option<u32>,
    test: Option<u32>,
}

impl Party {
    fn new(taken: u64) -> Party {
        Party {
            taken,
            stopped: false,
            open: None,
            domain: None,
            instructions: None,
            runs: 0,
            claims: 0,
        }
    }
}

impl Lessees {
    /// A session that has taken no word yet. Bit n of the owners is the party that
    /// owns input or output n. 3 for an edition other than 1 and 2, then for a bit
    /// above the sixteen inputs and the four outputs.
    pub fn begin(edition: u32, inputs: u32, outputs: u32) -> Answer<Lessees> {
        Lessees::begin_after(edition, inputs, outputs, [0, 0])
    }

    /// The same with so many words of each party already counted as taken, so that
    /// refusal 17 can be tried.
    pub fn begin_after(
        edition: u32,
        inputs: u32,
        outputs: u32,
        taken: [u64; 2],
    ) -> Answer<Lessees> {
        if edition != 1 && edition != 2 {
            return Err(3);
        }
        if bits(inputs, 31, 16) != 0 || bits(outputs, 31, 4) != 0 {
            return Err(3);
        }
        Ok(Lessees {
            edition,
            owners_of_inputs: inputs,
            owners_of_outputs: outputs,
            parties: taken.map(Party::new),
            inputs: [None; 16],
            outputs: [None; 4],
            output_mask: FIRST_MASK,
            floats: None,
            integers: None,
            booleans: None,
            conditional: None,
            conditional_mask: None,
            test: None,
        })
    }

    fn owns_input(&self, party: bool, number: u32) -> bool {
        bits(self.owners_of_inputs, number, number) == u32::from(party)
    }

    fn owns_output(&self, party: bool, number: u32) -> bool {
        bits(self.owners_of_outputs, number, number) == u32::from(party)
    }

    fn of(&self, party: bool) -> &Party {
        &self.parties[usize::from(party)]
    }

    fn of_mut(&mut self, party: bool) -> &mut Party {
        &mut self.parties[usize::from(party)]
    }

    /// Takes one word of a party, or refuses it: 1, then 17, both by what that
    /// party has taken; then what the word causes.
    pub fn word(&mut self, party: bool, word: u32) -> Answer<Reply> {
        if self.of(party).stopped {
            return Err(1);
        }
        let answer = self.judged_word(party, word);
        let own = self.of_mut(party);
        match answer {
            Ok(_) => own.taken += 1,
            // "Like 2 to 9, 20 drops the open command and stops"; "a stop stops only
            // its party".
            Err(_) => {
                own.open = None;
                own.stopped = true;
            }
        }
        answer
    }

    fn judged_word(&mut self, party: bool, word: u32) -> Answer<Reply> {
        if self.of(party).taken >= MOST_WORDS {
            return Err(17);
        }
        match self.of(party).open.clone() {
            None => self.header_word(party, word),
            Some((header, parameters)) => self.parameter_word(party, header, parameters, word),
        }
    }

    /// A word where this party has no command open: 2, then 20 for a header that
    /// sets what belongs to party 0.
    fn header_word(&mut self, party: bool, word: u32) -> Answer<Reply> {
        line_of(word)?;
        if party && OF_PARTY_0.contains(&word) {
            return Err(20);
        }
        self.of_mut(party).open = Some((word, Vec::new()));
        Ok(Reply::Open)
    }

    /// A parameter of this party's open command: 3 and 4 by the word itself, then
    /// 20 for a number that it doesn't own; 5 to 9 if it is the last one.
    fn parameter_word(
        &mut self,
        party: bool,
        header: u32,
        mut parameters: Vec<u32>,
        word: u32,
    ) -> Answer<Reply> {
        let line = line_of(header)?;
        let kind = line.parameters[parameters.len()];
        judge_word(kind, word)?;
        let owned = match kind {
            Kind::InputNumber => self.owns_input(party, word),
            Kind::OutputNumber => self.owns_output(party, word),
            _ => true,
        };
        if !owned {
            return Err(20);
        }
        parameters.push(word);
        if parameters.len() < line.parameters.len() {
            self.of_mut(party).open = Some((header, parameters));
            return Ok(Reply::Open);
        }
        let mut fields = [0; 4];
        for (place, parameter) in parameters.iter().enumerate() {
            fields[place] = *parameter;
        }
        self.complete(party, line, fields)
    }

    /// The last parameter has passed by itself: 5 to 9, and then the command takes
    /// effect. The command keeps its words whole, so that it writes back.
    fn complete(&mut self, party: bool, line: &Line, fields: [u32; 4]) -> Answer<Reply> {
        judge_together(line, &fields)?;
        if line.header == START_PROGRAM {
            self.judge_start(party)?;
        }
        self.apply(party, line, &fields);
        self.of_mut(party).open = None;
        Ok(Reply::Done(Command {
            header: line.header,
            fields,
        }))
    }

    fn apply(&mut self, party: bool, line: &Line, fields: &[u32; 4]) {
        let format = format_of(line, fields);
        match line.header {
            SET_DOMAIN => self.of_mut(party).domain = Some(*fields),
            SET_INST_FMT => self.of_mut(party).instructions = format,
            START_PROGRAM => self.count_start(party),
            SET_OUT_MASK => self.set_mask(party, fields[0]),
            // From here on only what the party owns gets this far.
            SET_INP_FMT => self.inputs[fields[0] as usize] = format,
            SET_OUT_FMT => self.outputs[fields[0] as usize] = format,
            SET_CONSTF_FMT => self.floats = format,
            SET_CONSTI_FMT => self.integers = format,
            SET_CONSTB_FMT => self.booleans = format,
            SET_COND_OUT_FMT => self.conditional = format,
            SET_COND_OUT_MASK => self.conditional_mask = Some(fields[0]),
            SET_COND_TEST => self.test = Some(fields[0]),
            _ => {}
        }
    }

    /// "A set_out_mask changes only the bits of one's own outputs."
    fn set_mask(&mut self, party: bool, word: u32) {
        let mut mask = 0;
        for place in 0..16 {
            // Bit 4n+c is for output n, channel c.
            let owned = self.owns_output(party, place / 4);
            let from = if owned { word } else { self.output_mask };
            mask += bits(from, place, place) << place;
        }
        self.output_mask = mask;
    }

    /// The party's own outputs that are set, with their numbers.
    fn own_outputs(&self, party: bool) -> Vec<(u32, Format)> {
        let mut own = Vec::new();
        for (number, output) in (0..4).zip(self.outputs) {
            if let Some(format) = output {
                if self.owns_output(party, number) {
                    own.push((number, format));
                }
            }
        }
        own
    }

    /// How many channels of an output's format the mask leaves.
    fn unmasked(&self, number: u32, format: &Format) -> u64 {
        // A format that was set has a known code.
        let channels = FormatCode::of(format.format).map_or(0, |code| code.channels);
        (0..channels)
            .map(|channel| 4 * number + channel)
            .map(|place| u64::from(bits(self.output_mask, place, place)))
            .sum()
    }

    /// 7, 8, 9: "look only at one's own outputs". Silent ones are passed over in 8
    /// and 9.
    fn judge_start(&self, party: bool) -> Answer<()> {
        let own = self.own_outputs(party);
        let domain = self.of(party).domain.ok_or(7u32)?;
        if self.of(party).instructions.is_none() || own.is_empty() {
            return Err(7);
        }
        let counted: Vec<Format> = own
            .iter()
            .filter(|(number, format)| self.unmasked(*number, format) > 0)
            .map(|(_, format)| *format)
            .collect();
        for output in &counted {
            if !domain_is_inside(&domain, output)? {
                return Err(8);
            }
        }
        judge_spans(&counted)
    }

    /// One run more of this party, and for each pair of its domain one for each of
    /// its outputs that isn't silent, or in edition 2 one for each unmasked channel.
    fn count_start(&mut self, party: bool) {
        let mut credit = 0;
        for (number, format) in self.own_outputs(party) {
            let unmasked = self.unmasked(number, &format);
            credit += if self.edition == 1 {
                unmasked.min(1)
            } else {
                unmasked
            };
        }
        let own = self.of_mut(party);
        if let Some([i0, j0, i1, j1]) = own.domain {
            let columns = u64::from(i1 - i0) + 1;
            let rows = u64::from(j1 - j0) + 1;
            own.runs += 1;
            own.claims += columns * rows * credit;
        }
    }

    /// A piece of one party's words, up to the first refused one.
    pub fn feed(&mut self, party: bool, words: &[u32]) -> Fed {
        let mut fed = NOTHING;
        for word in words {
            note(&mut fed, self.word(party, *word));
            if fed.refusal.is_some() {
                break;
            }
        }
        fed
    }

    /// "A piece runs on past a refused word and answers for each party apart: words
    /// taken, commands, first refusal."
    pub fn feed_both(&mut self, words: &[(bool, u32)]) -> [Fed; 2] {
        let mut fed = [NOTHING; 2];
        for (party, word) in words {
            let answer = self.word(*party, *word);
            note(&mut fed[usize::from(*party)], answer);
        }
        fed
    }

    /// What the party's settings alone would give its start: 0, 7, 8 or 9.
    pub fn readiness(&self, party: bool) -> u32 {
        match self.judge_start(party) {
            Ok(()) => 0,
            Err(number) => number,
        }
    }

    /// The words that the party's session has taken since it began.
    pub fn taken(&self, party: bool) -> u64 {
        self.of(party).taken
    }

    /// Whether a refusal has stopped the party.
    pub fn stopped(&self, party: bool) -> bool {
        self.of(party).stopped
    }

    /// The party's open command: its header and how many parameters were taken.
    pub fn open(&self, party: bool) -> Option<(u32, u32)> {
        let open = self.of(party).open.as_ref();
        open.map(|(header, parameters)| (*header, parameters.len() as u32))
    }

    /// The party's starts that passed.
    pub fn runs(&self, party: bool) -> u64 {
        self.of(party).runs
    }

    /// What those starts claimed.
    pub fn claims(&self, party: bool) -> u64 {
        self.of(party).claims
    }

    /// The party's i0, j0, i1, j1.
    pub fn domain(&self, party: bool) -> Option<[u32; 4]> {
        self.of(party).domain
    }

    /// The party's instruction format.
    pub fn instructions(&self, party: bool) -> Option<Format> {
        self.of(party).instructions
    }

    /// An output's format; 4 for a number over 3.
    pub fn output(&self, number: u32) -> Answer<Option<Format>> {
        self.outputs.get(number as usize).copied().ok_or(4)
    }

    /// An input's format; 4 for a number over 15.
    pub fn input(&self, number: u32) -> Answer<Option<Format>> {
        self.inputs.get(number as usize).copied().ok_or(4)
    }

    /// The mask of all outputs, both parties' bits together.
    pub fn output_mask(&self) -> u32 {
        self.output_mask
    }

    /// The float constants' format, party 0's.
    pub fn floats(&self) -> Option<Format> {
        self.floats
    }

    /// The integer constants' format, party 0's.
    pub fn integers(&self) -> Option<Format> {
        self.integers
    }

    /// The boolean constants' format, party 0's.
    pub fn booleans(&self) -> Option<Format> {
        self.booleans
    }

    /// The conditional output's format, party 0's.
    pub fn conditional(&self) -> Option<Format> {
        self.conditional
    }

    /// The conditional output mask, party 0's, if it was set.
    pub fn conditional_mask(&self) -> Option<u32> {
        self.conditional_mask
    }

    /// The conditional test, party 0's, if it was set.
    pub fn test(&self) -> Option<u32> {
        self.test
    }
}

/// What a piece without words answers.
const NOTHING: Fed = Fed {
    taken: 0,
    commands: 0,
    refusal: None,
};

/// Adds one word's answer to a piece's.
fn note(fed: &mut Fed, answer: Answer<Reply>) {
    match answer {
        Ok(reply) => {
            fed.taken += 1;
            fed.commands += u64::from(reply != Reply::Open);
        }
        Err(number) => {
            fed.refusal.get_or_insert(number);
        }
    }
}

#[cfg(test)]
mod tests;
