//! What a step was as far as loops go, counted by name, for the tests that ask
//! whether the mixture is telling. Told from the second program's group and answer.

use crate::case::Case;
use crate::loops::{ENDLOOP, ENDREP, LOOP, REP};
use second::flow::{Group, Loop, Processor, Program, Stepped};
use second::Answer;

/// The most open loops.
const MOST: usize = 4;

/// The bits of a slot's words that processors decide by: B_ELSE, JUMP_ANY and
/// JUMP_FUNC; the boolean's number.
const WISHES: [u32; 2] = [0x0000_FF30, 0x0000_001F];

/// The bits of the second word that name an opening's integer word.
const INTEGER: u32 = 0x1F00;

/// What a loop's step is refused for where its loop isn't the cause.
const ELSE: &str = "loops' steps refused for branch or return work";

/// A step of the second program, with all that it was asked with.
pub struct Turn<'a> {
    pub program: &'a Program,
    pub masks: (u32, u32, u32),
    pub integers: &'a [u32],
    pub before: &'a Group,
    pub after: &'a Group,
    pub answer: &'a Answer<Stepped>,
}

impl Turn<'_> {
    fn words(&self) -> [u32; 2] {
        self.program.slots[self.before.position as usize]
    }

    fn op(&self) -> u32 {
        self.words()[0] & 15
    }

    /// Whether the step is of a loop's op.
    pub fn is_of_a_loop(&self) -> bool {
        *self.answer != Err(16) && (LOOP..=ENDREP).contains(&self.op())
    }

    /// Whether it is of op 0, where document 01 alone says all.
    pub fn is_of_op_0(&self) -> bool {
        *self.answer != Err(16) && self.op() == 0
    }

    /// The integer word that the slot names, if the list has it.
    fn integer(&self) -> Option<u32> {
        let number = self.words()[1] >> 8 & 31;
        self.integers.get(number as usize).copied()
    }

    /// Counts what the step was. Answers whether it was a loop's that got 14.
    pub fn count(&self, case: &mut Case) -> bool {
        match self.answer {
            Err(16) => false,
            Ok(stepped) => {
                self.count_accepted(case, stepped.jumped);
                false
            }
            Err(number) => {
                let cause = self.cause(*number);
                cause.into_iter().for_each(|name| case.tally.mark(name));
                *number == 14 && cause.is_some()
            }
        }
    }

    fn count_accepted(&self, case: &mut Case, jumped: bool) {
        let open = &self.after.loops;
        if self.op() == 0 {
            if jumped && !open.is_empty() {
                case.tally.mark("jumps with a loop open");
            }
            return;
        }
        case.tally.mark(match (self.op(), jumped) {
            (LOOP, false) => "LOOPs opened",
            (REP, false) => "REPs opened",
            (ENDLOOP, true) => "turns of a LOOP",
            (ENDREP, true) => "turns of a REP",
            (ENDLOOP, false) => "LOOPs closed",
            (ENDREP, false) => "REPs closed",
            (_, true) if open.len() == MOST => "openings of count 0 with four loops open",
            _ => "openings of count 0",
        });
        if open.len() == MOST {
            case.tally.mark("steps that left four loops open");
        }
        if self.after.al() > 0 && matches!(open.last(), Some(Loop::Rep { .. })) {
            case.tally.mark("steps that show a LOOP's aL inside a REP");
        }
        if self.before.returns != self.after.returns {
            case.tally.mark("loops' steps with a push or a pop");
        }
        self.count_processors(case, jumped);
    }

    /// What a loop's decision and its branch work did to the processors.
    fn count_processors(&self, case: &mut Case, jumped: bool) {
        let active = |group: &Group| {
            let processors = group.processors.iter();
            processors.filter(|p| **p == Processor::Active).count()
        };
        let (before, after) = (active(self.before), active(self.after));
        if before == 0 {
            case.tally.mark("loops' steps with nobody active");
        }
        if after < before {
            case.tally.mark("loops' steps that set some waiting");
        }
        if let Some(decided) = self.by_wishes() {
            if decided != jumped {
                case.tally.mark("loops' decisions against the wishes");
            }
        }
    }

    /// What the processors would have decided: the step of the same slot as a JUMP.
    fn by_wishes(&self) -> Option<bool> {
        let [first, second] = self.words();
        let jump = Program::load(&[first & WISHES[0], second & WISHES[1]]).ok()?;
        let (alu, predicate, booleans) = self.masks;
        let mut group = self.before.clone();
        group.position = 0;
        let stepped = group.step(&jump, alu, predicate, booleans);
        stepped.ok().map(|stepped| stepped.jumped)
    }

    /// Why the step was refused, where it was a loop's or for what loops added.
    fn cause(&self, number: u32) -> Option<&'static str> {
        let opens = self.op() == LOOP || self.op() == REP;
        let open = &self.before.loops;
        match (number, self.integer()) {
            (13, _) if self.op() > ENDREP => Some("steps refused for an op over 4"),
            (13, _) if !opens && self.words()[1] & INTEGER != 0 => {
                Some("steps refused for an integer number that isn't named")
            }
            (13, None) if opens && open.len() == MOST => {
                Some("openings without an integer word with four loops open")
            }
            (13, None) if opens => Some("openings without an integer word"),
            (13, Some(word)) if opens && word >> 24 != 0 => {
                Some("openings refused for their integer word")
            }
            (14, Some(word)) if opens && word & 0xFF != 0 && open.len() == MOST => {
                Some("openings of a fifth loop")
            }
            (14, _) if self.is_of_a_loop() => Some(self.refused_close().unwrap_or(ELSE)),
            (15, _) if self.is_of_a_loop() => Some("loops' jumps past the end"),
            _ => None,
        }
    }

    fn refused_close(&self) -> Option<&'static str> {
        let innermost = self.before.loops.last();
        match (self.op(), innermost) {
            (ENDLOOP | ENDREP, None) => Some("closes with no loop open"),
            (ENDLOOP, Some(Loop::Rep { .. })) | (ENDREP, Some(Loop::Loop { .. })) => {
                Some("closes of the other kind")
            }
            (ENDLOOP, Some(Loop::Loop { count, al, step })) if *count > 1 => {
                match *al as i32 + step {
                    next if next < 0 => Some("closes with aL below 0"),
                    next if next > 255 => Some("closes with aL above 255"),
                    _ => None,
                }
            }
            _ => None,
        }
    }
}
