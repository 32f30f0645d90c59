//! A case that differs, made smaller. A case is made from numbers that are drawn, so
//! fewer of them and smaller ones are tried, as long as the two programs differ.

use crate::case::Difference;
use crate::random::Random;
use crate::tally::Tally;
use crate::{run_with, Failure, Kind, PANICKED};
use std::fmt;
use std::panic;

/// Cases that are tried before the smallest one so far is told: some seconds.
const MOST_TRIED: usize = 20_000;

/// The smallest case found, by what it draws; zeros behind that.
#[derive(Clone, Debug, PartialEq, Eq)]
pub struct Reduced {
    pub kind: Kind,
    /// How many numbers the case drew before.
    pub before: usize,
    pub list: Vec<u64>,
    pub difference: Difference,
}

/// A failure's case, reduced. Meanwhile a panic prints nothing.
pub fn reduced(failure: &Failure) -> Reduced {
    let hook = panic::take_hook();
    panic::set_hook(Box::new(|_| ()));
    let kind = failure.kind;
    let mut random = Random::of_case(kind as u64, failure.seed, failure.number);
    let (before, _) = run_with(kind, random.clone(), &mut Tally::new(), false);
    let drawn = (0..before).map(|_| random.long()).collect();
    let mut difference = failure.difference.clone();
    let panics = difference.asked == PANICKED;
    let list = smallest(drawn, MOST_TRIED, |list| {
        let (_, ended) = run_with(kind, Random::of_list(list), &mut Tally::new(), false);
        let found = ended
            .err()
            .filter(|found| (found.asked == PANICKED) == panics);
        let differs = found.is_some();
        difference = found.map_or_else(|| difference.clone(), |found| *found);
        differs
    });
    panic::set_hook(hook);
    Reduced {
        kind,
        before,
        list,
        difference,
    }
}

/// A change of some numbers that follow each other in a list.
#[derive(Clone, Copy)]
enum Change {
    LeftOut,
    Zero,
    Halved,
}

impl Change {
    const ALL: [Change; 3] = [Change::LeftOut, Change::Zero, Change::Halved];

    /// The list with the change, if it changes something.
    fn of(self, list: &[u64], from: usize, length: usize) -> Option<Vec<u64>> {
        let to = list.len().min(from + length);
        let mut changed = list.to_vec();
        match self {
            Change::LeftOut => drop(changed.drain(from..to)),
            Change::Zero => changed[from..to].fill(0),
            Change::Halved => changed[from..to].iter_mut().for_each(|number| *number /= 2),
        }
        (changed != list).then_some(changed)
    }
}

/// The smallest list found that still differs: the longest parts are tried first, and all of
/// it again until nothing helps. A list that differs is never given up for one that doesn't.
pub fn smallest(list: Vec<u64>, most: usize, mut differs: impl FnMut(&[u64]) -> bool) -> Vec<u64> {
    let (mut best, mut left) = (list, most);
    loop {
        let before = best.clone();
        let mut length = best.len();
        while length > 0 {
            for change in Change::ALL {
                let mut from = 0;
                while from < best.len() && left > 0 {
                    let tried = change.of(&best, from, length);
                    left -= usize::from(tried.is_some());
                    match tried.filter(|tried| differs(tried)) {
                        Some(smaller) => best = smaller,
                        None => from += length,
                    }
                }
            }
            length /= 2;
        }
        if best == before || left == 0 {
            break;
        }
    }
    // Behind the list zeros are drawn anyway.
    while best.last() == Some(&0) {
        best.pop();
    }
    best
}

impl fmt::Display for Reduced {
    fn fmt(&self, f: &mut fmt::Formatter<'_>) -> fmt::Result {
        let (before, now) = (self.before, self.list.len());
        writeln!(f, "Reduced from {before} drawn numbers to {now}:")?;
        writeln!(f, "{}", self.difference)?;
        writeln!(f, "To run the smaller case by itself:")?;
        let list: Vec<String> = self.list.iter().map(|n| format!("{n:x}")).collect();
        let list = if list.is_empty() {
            "0".to_string()
        } else {
            list.join(",")
        };
        let kind = self.kind.name();
        write!(f, "    ./compare --kind {kind} --draws {list}")
    }
}

#[cfg(test)]
mod tests {
    use super::*;

    #[test]
    fn what_plays_no_part_is_left_out() {
        let list = (0..200).map(|n| n * 37 % 1_000).collect();
        let differs = |list: &[u64]| list.iter().filter(|&&n| n >= 500).count() >= 2;
        assert!(differs(&smallest(vec![999; 9], 10_000, differs)));
        let found = smallest(list, 10_000, differs);
        assert_eq!(found.len(), 2);
        assert!(found.iter().all(|n| (500..1_000).contains(n)), "{found:?}");
    }

    #[test]
    fn a_place_that_counts_keeps_its_place() {
        let list = (1..=50).collect();
        let found = smallest(list, 10_000, |list| list.get(6) == Some(&7));
        assert_eq!(found, [0, 0, 0, 0, 0, 0, 7]);
    }

    #[test]
    fn it_ends_after_so_many_trials() {
        let mut tried = 0;
        let found = smallest(vec![9; 100], 30, |_| {
            tried += 1;
            false
        });
        assert_eq!((found.len(), tried), (100, 30));
        assert_eq!(smallest(Vec::new(), 30, |_| true), []);
    }
}
