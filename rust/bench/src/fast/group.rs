//! A group of processors: what a step and a run do, whatever way the branch counters are kept.

use super::loops::Loops;
use super::program::{Place, Program, Report, Slot, Stepped, DECREMENT, INCREMENT};
use super::refusal::{Answer, AT_LIMIT, ENDED, FLOW_WORD};

/// The branch counters of up to 32 processors. Those of active processors are 0.
pub trait Counters: Copy {
    const ZEROS: Self;

    /// The processors whose counter is 0.
    fn at_zero(&self) -> u32;

    /// Takes `count` from the counters of these processors, and gives those that would go below zero; their counter is then 0.
    fn lower(&mut self, processors: u32, count: u32) -> u32;

    /// Adds 1 to the counters of these processors. 14 where one is at 31.
    fn raise(&mut self, processors: u32) -> Answer<()>;

    /// Whether a counter is at the limit of partial mode, 5, or above.
    fn at_partial(&self) -> bool;

    fn counter(&self, processor: u32) -> u32;
}

/// A group's state.
#[derive(Clone, Copy, Debug, PartialEq, Eq)]
pub struct Group<C> {
    pub(super) members: u32,
    pub(super) active: u32,
    pub(super) killed: u32,
    counters: C,
    pub(super) place: Place,
    loops: Loops,
    partial: bool,
}

/// A step's masks: alu, predicate and booleans.
type Masks = (u32, u32, u32);

impl<C: Counters> Group<C> {
    /// A fresh group of 1 to 32 processors in full mode. 13.
    pub fn begin(size: u32) -> Answer<Group<C>> {
        Group::begin_in(size, false)
    }

    /// A fresh group of 1 to 32 processors, in partial mode or in full. 13.
    #[inline(never)]
    pub fn begin_in(size: u32, partial: bool) -> Answer<Group<C>> {
        if size.wrapping_sub(1) >= 32 {
            return Err(FLOW_WORD);
        }
        let members = u32::MAX >> (32 - size);
        Ok(Group {
            members,
            active: members,
            killed: 0,
            counters: C::ZEROS,
            place: Place::default(),
            loops: Loops::default(),
            partial,
        })
    }

    /// One step. 13 to 16; a refusal changes nothing.
    #[inline(never)]
    pub fn step(
        &mut self,
        program: &Program,
        alu: u32,
        predicate: u32,
        booleans: u32,
        integers: &[u32],
    ) -> Answer<Stepped> {
        let jumped = self.advance(program, (alu, predicate, booleans), integers)?;
        Ok(Stepped {
            jumped,
            position: self.place.position,
        })
    }

    /// Steps up to the end of the list of masks or of the program. 13 to 16; a refusal leaves the group as it was.
    #[inline(never)]
    pub fn run(
        &mut self,
        program: &Program,
        masks: &[u32],
        booleans: u32,
        integers: &[u32],
    ) -> Answer<Report> {
        if program.has_ended(self.place.position) {
            return Err(ENDED);
        }
        let mut group = *self;
        let mut steps = 0;
        for pair in masks.chunks_exact(2) {
            if program.has_ended(group.place.position) {
                break;
            }
            group.advance(program, (pair[0], pair[1], booleans), integers)?;
            steps += 1;
        }
        *self = group;
        Ok(Report::new(steps, self.active))
    }

    #[inline(always)]
    fn advance(&mut self, program: &Program, masks: Masks, integers: &[u32]) -> Answer<bool> {
        if program.has_ended(self.place.position) {
            return Err(ENDED);
        }
        let slot = program.slot(self.place.position);
        if self.partial {
            slot.judge_partial()?;
        }
        if slot.op() == 0 {
            slot.judge()?;
            return self.settle(program, slot, masks, None);
        }
        slot.judge_loop()?;
        let mut loops = self.loops;
        let jumps = loops.turn(slot, integers)?;
        self.settle(program, slot, masks, Some(jumps))?;
        self.loops = loops;
        Ok(jumps)
    }

    /// A step once its slot is judged: a loop has decided, or the processors do.
    #[inline(always)]
    fn settle(
        &mut self,
        program: &Program,
        slot: Slot,
        (alu, predicate, booleans): Masks,
        decision: Option<bool>,
    ) -> Answer<bool> {
        let mut active = self.active;
        let mut counters = self.counters;
        if slot.inverts() {
            active = self.members & !active & counters.at_zero();
        }
        let wishes = slot.wishes(alu, predicate, booleans);
        let jumps = decision.unwrap_or_else(|| slot.jumps(active, wishes));
        let inactive = self.members & !active;
        match slot.counter_code(jumps) {
            DECREMENT => active |= counters.lower(inactive, slot.pop_count()),
            INCREMENT => {
                if self.partial && counters.at_partial() {
                    return Err(AT_LIMIT);
                }
                counters.raise(inactive)?;
                active &= if jumps { wishes } else { !wishes };
            }
            _ => {}
        }
        self.place.advance(slot, jumps, program)?;
        self.active = active;
        self.counters = counters;
        Ok(jumps)
    }

    pub fn active(&self) -> u32 {
        self.active
    }

    pub fn position(&self) -> u32 {
        self.place.position
    }

    pub fn counter(&self, processor: u32) -> u32 {
        self.counters.counter(processor)
    }

    /// The stored returns, oldest first.
    pub fn returns(&self) -> &[u32] {
        self.place.returns()
    }

    /// The aL shown, and the turns left in each open loop, the outermost first.
    pub fn loops(&self) -> (u32, Vec<u32>) {
        (self.loops.al(), self.loops.counts())
    }
}
