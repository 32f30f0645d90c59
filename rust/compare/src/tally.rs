//! What a number of cases came to: how many there were, how many answers were
//! accepted, how often each refusal came up, and named marks besides. A test
//! reads it to see that its cases were a telling mixture.

use std::collections::BTreeMap;

#[derive(Clone, Debug, Default, PartialEq, Eq)]
pub struct Tally {
    pub cases: u64,
    /// Calls that were accepted (by both programs, else the case ends).
    pub accepted: u64,
    /// Each refusal's number has a count of its own, also one that no document has.
    refused: BTreeMap<u32, u64>,
    marks: BTreeMap<&'static str, u64>,
}

impl Tally {
    pub fn new() -> Tally {
        Tally::default()
    }

    /// Counts one call's answer: 0 for accepted, else its refusal.
    pub fn answer(&mut self, number: u32) {
        match number {
            0 => self.accepted += 1,
            refusal => *self.refused.entry(refusal).or_insert(0) += 1,
        }
    }

    pub fn mark(&mut self, name: &'static str) {
        self.add(name, 1);
    }

    pub fn add(&mut self, name: &'static str, count: u64) {
        *self.marks.entry(name).or_insert(0) += count;
    }

    pub fn refused(&self, number: u32) -> u64 {
        self.refused.get(&number).copied().unwrap_or(0)
    }

    /// The refusals that came up, in the order of their numbers.
    pub fn refusals(&self) -> impl Iterator<Item = u32> + '_ {
        self.refused.keys().copied()
    }

    pub fn marked(&self, name: &str) -> u64 {
        self.marks.get(name).copied().unwrap_or(0)
    }

    pub fn merge(&mut self, other: &Tally) {
        self.cases += other.cases;
        self.accepted += other.accepted;
        for (number, count) in &other.refused {
            *self.refused.entry(*number).or_insert(0) += count;
        }
        for (name, count) in &other.marks {
            self.add(name, *count);
        }
    }

    /// The counts in one line each, for people.
    pub fn describe(&self) -> String {
        let mut text = format!("  accepted {}", self.accepted);
        for (number, count) in &self.refused {
            text += &format!(", refusal {number}: {count}");
        }
        for (name, count) in &self.marks {
            text += &format!("\n  {name} {count}");
        }
        text
    }
}

#[cfg(test)]
mod tests {
    use super::Tally;

    #[test]
    fn merging_adds_every_count() {
        let mut a = Tally::new();
        a.cases = 2;
        a.answer(0);
        a.answer(3);
        a.mark("runs");
        let mut b = a.clone();
        b.answer(17);
        b.merge(&a);
        assert_eq!((b.cases, b.accepted), (4, 2));
        assert_eq!((b.refused(3), b.refused(17), b.refused(1)), (2, 1, 0));
        assert_eq!((b.marked("runs"), b.marked("starts")), (2, 0));
    }

    #[test]
    fn every_number_has_a_count_of_its_own() {
        let mut tally = Tally::new();
        for number in [21, 22, 22, u32::MAX] {
            tally.answer(number);
        }
        assert_eq!(
            (tally.refused(20), tally.refused(21), tally.refused(22)),
            (0, 1, 2)
        );
        assert!(tally.refusals().eq([21, 22, u32::MAX]));
        assert_eq!(
            tally.describe(),
            "  accepted 0, refusal 21: 1, refusal 22: 2, refusal 4294967295: 1"
        );
    }
}
