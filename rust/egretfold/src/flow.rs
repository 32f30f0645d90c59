//! Flow words for one group: programs, groups, steps, runs and kills.

use crate::lengths::{CELLS, SLOTS};
use crate::{answer, lent, Answer};

/// A loaded program: the store of [`SLOTS`] slots, two words each, of which the
/// first ones run.
#[derive(Clone, Debug, PartialEq, Eq)]
pub struct Program {
    store: Box<Store>,
    slots: u32,
}

#[derive(Clone, Debug, PartialEq, Eq)]
pub(crate) struct Store {
    pub(crate) firsts: [u32; SLOTS],
    pub(crate) seconds: [u32; SLOTS],
}

impl Program {
    /// Loads a program, two words a slot. 15.
    pub fn load(words: &[u32]) -> Answer<Program> {
        let mut store = Box::new(Store {
            firsts: [0; SLOTS],
            seconds: [0; SLOTS],
        });
        let mut slots = [0];
        let Store { firsts, seconds } = &mut *store;
        answer(lent::program_load(words, firsts, seconds, &mut slots))?;
        let slots = slots[0];
        Ok(Program { store, slots })
    }

    /// How many slots run, document 01's N.
    #[inline]
    pub fn slots(&self) -> u32 {
        self.slots
    }

    /// The two words of slot `number` of the store.
    ///
    /// # Panics
    /// Where the number is [`SLOTS`] or more.
    #[inline]
    pub fn slot(&self, number: usize) -> [u32; 2] {
        [self.store.firsts[number], self.store.seconds[number]]
    }

    #[inline]
    pub(crate) fn store(&self) -> &Store {
        &self.store
    }
}

/// What a step answers besides the group's new state.
#[derive(Clone, Copy, Debug, PartialEq, Eq)]
pub struct Stepped {
    pub jumped: bool,
    pub position: u32,
}

/// What a run answers besides the group's new state.
#[derive(Clone, Copy, Debug, PartialEq, Eq)]
pub struct Report {
    pub steps: u64,
    /// The first active processor, 32 if none is.
    pub first: u32,
    /// How many processors are active.
    pub active: u32,
}

/// An open loop. Its count is that of the turns left, the present one among them; a
/// LOOP's aL gains the step with each further turn.
#[derive(Clone, Copy, Debug, PartialEq, Eq)]
pub enum Loop {
    Loop { count: u32, al: u32, step: i32 },
    Rep { count: u32 },
}

/// A group's open loops and the aL shown.
#[derive(Clone, Debug, PartialEq, Eq)]
pub struct Loops {
    /// Outermost first.
    pub open: Vec<Loop>,
    /// The innermost open LOOP's, 0 if none is open.
    pub al: u32,
}

/// A group's mode, chosen when it begins and never changed. In partial mode ops 1 to
/// 4 and A_OP other than 0 get 13, and branch counters run to 5 instead of 31.
#[derive(Clone, Copy, Debug, PartialEq, Eq)]
pub enum Mode {
    Full,
    Partial,
}

impl Mode {
    /// The mode's number at the boundary and in the cells.
    #[inline]
    pub fn number(self) -> u32 {
        match self {
            Mode::Full => 0,
            Mode::Partial => 1,
        }
    }
}

/// A group's state. Its cells are private, so that it is always one that the
/// library gave out. It may be copied and both copies used, also under another
/// program than the one it came from.
#[derive(Clone, Copy, Debug, PartialEq, Eq)]
pub struct Group {
    pub(crate) cells: [u32; CELLS],
}

impl Group {
    /// A fresh group of 1 to 32 processors in full mode, document 01's. 13.
    #[inline]
    pub fn begin(size: u32) -> Answer<Group> {
        Group::begin_in(size, Mode::Full)
    }

    /// A fresh group of 1 to 32 processors in a mode. 13.
    #[inline]
    pub fn begin_in(size: u32, mode: Mode) -> Answer<Group> {
        let mut cells = [0; CELLS];
        answer(lent::group_begin(size, mode.number(), &mut cells))?;
        Ok(Group { cells })
    }

    /// One step, with the integer words that LOOP and REP take by their number. 13
    /// to 16; a refusal changes nothing.
    ///
    /// ```
    /// use egretfold::{Group, Program};
    ///
    /// // A slot that all processors leave for the program's end.
    /// let program = Program::load(&[0xFF00, 0x0001_0000])?;
    /// let mut group = Group::begin(8)?;
    /// let stepped = group.step(&program, 0, 0, 0, &[])?;
    /// assert_eq!((stepped.jumped, stepped.position), (true, 1));
    /// # Ok::<(), egretfold::Refusal>(())
    /// ```
    #[inline]
    pub fn step(
        &mut self,
        program: &Program,
        alu: u32,
        predicate: u32,
        booleans: u32,
        integers: &[u32],
    ) -> Answer<Stepped> {
        let mut taken = [0; 2];
        let masks = (alu, predicate, booleans);
        answer(lent::group_step(self, program, masks, integers, &mut taken))?;
        Ok(Stepped {
            jumped: taken[0] != 0,
            position: taken[1],
        })
    }

    /// Steps up to the end of the list of masks (alu, then predicate, for each
    /// step) or of the program, with one list of integer words for all. 13 to 16; a
    /// refused step leaves the group as it was before the run.
    #[inline]
    pub fn run(
        &mut self,
        program: &Program,
        masks: &[u32],
        booleans: u32,
        integers: &[u32],
    ) -> Answer<Report> {
        let mut report = [0; 3];
        let number = lent::group_run(self, program, masks, booleans, integers, &mut report);
        answer(number)?;
        Ok(Report {
            steps: report[0],
            // Both are 32 at most.
            first: report[1] as u32,
            active: report[2] as u32,
        })
    }

    /// The kill test: every active processor that has a channel under the write mask
    /// (bit c for channel c) less than zero is killed and leaves the group. The
    /// registers are four floats for each processor of the group as it began,
    /// processor 0 first. Answers those who were killed now, bit i for processor i.
    /// 16 where the program has ended, 13 for a mask over 15, 11 for another number
    /// of floats, in that order; a refusal changes nothing.
    #[inline]
    pub fn kill(&mut self, program: &Program, registers: &[f32], mask: u32) -> Answer<u32> {
        let mut killed = [0];
        answer(lent::group_kill(
            self,
            program,
            mask,
            registers,
            &mut killed,
        ))?;
        Ok(killed[0])
    }

    /// The number of processors in the group; the killed aren't.
    #[inline]
    pub fn size(&self) -> u32 {
        self.mask().count_ones()
    }

    /// The number of processors of the group as it began: those in it and the
    /// killed.
    #[inline]
    pub fn started(&self) -> u32 {
        (self.mask() | self.killed()).count_ones()
    }

    /// The processors in the group, bit i for processor i.
    #[inline]
    pub fn mask(&self) -> u32 {
        self.cells[0]
    }

    /// The active ones, bit i for processor i.
    #[inline]
    pub fn active(&self) -> u32 {
        self.cells[1]
    }

    /// Those who were killed so far, bit i for processor i.
    #[inline]
    pub fn killed(&self) -> u32 {
        self.cells[13]
    }

    /// The branch counter of a processor, 0 for an active one.
    ///
    /// # Panics
    /// Where the processor's number is 32 or more.
    #[inline]
    pub fn counter(&self, processor: u32) -> u32 {
        assert!(processor < 32, "a group has at most 32 processors");
        // Cell 2 + k holds bit k of every processor's counter.
        (0..5).fold(0, |counter, k| {
            counter | ((self.cells[2 + k] >> processor) & 1) << k
        })
    }

    #[inline]
    pub fn position(&self) -> u32 {
        self.cells[7]
    }

    /// The mode that the group began in.
    #[inline]
    pub fn mode(&self) -> Mode {
        match self.cells[12] {
            0 => Mode::Full,
            _ => Mode::Partial,
        }
    }

    /// The stored returns, oldest first.
    pub fn returns(&self) -> Vec<u32> {
        // The cells have the last one first, and 0 where there is none: a stored
        // return is a position plus 1, so it is never 0.
        let stored = self.cells[8..12].iter().rev();
        stored.copied().filter(|place| *place != 0).collect()
    }

    /// The open loops and the aL shown.
    pub fn loops(&self) -> Loops {
        let mut told = [0; 13];
        lent::group_loops(self, &mut told);
        let [al, loops @ ..] = &told;
        // The cells have a LOOP's step in bits 23:16, as -128 to 127.
        let step = |cell: u32| i32::from((cell >> 16) as u8 as i8);
        let one = |(numbers, cell): (&[u32], &u32)| match *numbers {
            [1, count, al] => Some(Loop::Loop {
                count,
                al,
                step: step(*cell),
            }),
            [3, count, _] => Some(Loop::Rep { count }),
            _ => None,
        };
        // Both have the innermost first.
        let mut open: Vec<Loop> = loops
            .chunks(3)
            .zip(&self.cells[14..18])
            .filter_map(one)
            .collect();
        open.reverse();
        Loops { open, al: *al }
    }

    /// The cells as the header describes them.
    #[inline]
    pub fn cells(&self) -> &[u32; CELLS] {
        &self.cells
    }
}
