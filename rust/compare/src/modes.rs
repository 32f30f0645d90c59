//! Cases of the eighth kind: two groups of one size, one in full and one in partial
//! mode, go side by side through the same program with the same masks. Each is
//! compared with the second program's; and the two with each other, by what request
//! 7 says: what partial mode accepts, full mode answers identically, and what it
//! refuses and full mode accepts has one of three causes.

use crate::case::{Agreed, Agreement, Case};
use crate::flow::{about, any_masks, loaded, Loaded, Masks};
use crate::groups::{seen, seen_in_second, Both};
use crate::programs;
use egretfold::lengths::CELLS;
use egretfold::{lent, Mode};
use second::flow::{Group, Processor, Report, Stepped};
use second::Answer;

/// The most that a counter of partial mode holds.
const MOST_COUNTER: u32 = 5;

/// A group in each mode.
#[derive(Clone)]
struct Pair {
    full: Both,
    partial: Both,
}

pub fn run(case: &mut Case) -> Agreement {
    no_such_mode(case)?;
    let (words, depth) = match case.random.below(4) {
        0 => (programs::any(&mut case.random), None),
        _ => {
            let depth = case.random.between(4, 7);
            (programs::nest(&mut case.random, depth), Some(depth))
        }
    };
    let size = case.random.between(1, 32);
    let fresh = begun(case, size)?;
    if let Some(program) = loaded(case, words)? {
        let masks = any_masks(&mut case.random);
        side_by_side(case, &program, fresh.clone(), &masks, depth)?;
        runs(case, &program, fresh, &masks)?;
    }
    Ok(())
}

/// A number that is no mode, with a size that may be none either: 13, and the room
/// stays as it was.
fn no_such_mode(case: &mut Case) -> Agreement {
    let mode = match case.random.below(4) {
        0 => 2,
        1 => u32::MAX,
        _ => case.random.word().max(2),
    };
    let size = case.random.between(0, 33);
    let filled = [case.random.word(); CELLS];
    let mut cells = filled;
    let product = match lent::group_begin(size, mode, &mut cells) {
        0 => Ok(()),
        number => Err(number),
    };
    let second = Group::begin_in(size, mode).map(|_| ());
    let asked = || format!("begin a group of {size} in mode {mode}");
    case.agree_answer(asked, &product, &second)?;
    case.untouched(asked, &cells, &filled)
}

/// Two groups of the size, each begun by both programs.
fn begun(case: &mut Case, size: u32) -> Agreed<Pair> {
    let mut one = |mode: Mode| -> Agreed<Both> {
        let product = egretfold::Group::begin_in(size, mode);
        let second = Group::begin_in(size, mode.number());
        let asked = || format!("begin a group of {size} in mode {mode:?}");
        let ours = product.as_ref().map(seen).map_err(|n| *n);
        let theirs = second.as_ref().map(seen_in_second).map_err(|n| *n);
        case.agree_answer(asked, &ours, &theirs)?;
        let (product, second) = (product.expect("a group"), second.expect("a group"));
        assert_eq!(product.mode(), mode);
        Ok(Both { product, second })
    };
    Ok(Pair {
        full: one(Mode::Full)?,
        partial: one(Mode::Partial)?,
    })
}

/// Steps both groups, as long as partial mode goes on and the program hasn't ended.
fn side_by_side(
    case: &mut Case,
    program: &Loaded,
    mut pair: Pair,
    masks: &Masks,
    depth: Option<u32>,
) -> Agreement {
    for (number, two) in masks.list.chunks_exact(2).enumerate() {
        let asked = || format!("step {number} of {}", about(program, masks));
        let before = pair.full.second.clone();
        let given = (two[0], two[1]);
        let full = step(case, asked, program, masks, given, &mut pair.full)?;
        let partial = step(case, asked, program, masks, given, &mut pair.partial)?;
        case.tally.mark("steps in both modes");
        match (&full, &partial) {
            (_, Ok(_)) => {
                let asked = || format!("in full mode, {}", asked());
                case.agree(asked, &full, &partial)?;
                same_but_the_mode(case, asked, &pair)?;
                let deepest = deepest(&pair.partial.second);
                if deepest == Some(MOST_COUNTER) {
                    case.tally
                        .mark("steps of partial mode that left a counter at 5");
                }
            }
            (Ok(_), Err(number)) => {
                let cause = cause(program, &before);
                let asked = || format!("cause of refusal {number} in partial mode, {}", asked());
                case.agree(asked, &cause.map(|(number, _)| number), &Some(*number))?;
                if let Some((_, name)) = cause {
                    case.tally.mark(name);
                    mark_depth(case, depth, "refused in partial mode alone");
                }
                return Ok(());
            }
            (Err(of_full), Err(of_partial)) => {
                if of_full != of_partial {
                    case.tally
                        .mark("steps refused by both modes with other numbers");
                }
                return Ok(());
            }
        }
    }
    mark_depth(case, depth, "through in both modes");
    Ok(())
}

fn mark_depth(case: &mut Case, depth: Option<u32>, ended: &str) {
    let name = match (depth, ended) {
        (Some(4), "through in both modes") => "nests 4 deep, through in both modes",
        (Some(5), "through in both modes") => "nests 5 deep, through in both modes",
        (Some(6), "through in both modes") => "nests 6 deep, through in both modes",
        (Some(7), "through in both modes") => "nests 7 deep, through in both modes",
        (Some(4), _) => "nests 4 deep, refused in partial mode alone",
        (Some(5), _) => "nests 5 deep, refused in partial mode alone",
        (Some(6), _) => "nests 6 deep, refused in partial mode alone",
        (Some(7), _) => "nests 7 deep, refused in partial mode alone",
        _ => return,
    };
    case.tally.mark(name);
}

/// The two groups differ in their mode alone.
fn same_but_the_mode(case: &Case, asked: impl Fn() -> String, pair: &Pair) -> Agreement {
    let asked = || format!("the two modes' groups after {}", asked());
    let mut full = *pair.full.product.cells();
    assert_eq!((full[12], pair.partial.product.cells()[12]), (0, 1));
    full[12] = 1;
    case.agree(asked, &full, pair.partial.product.cells())
}

/// Why partial mode refuses a step that full mode makes from this state, if it does.
fn cause(program: &Loaded, before: &Group) -> Option<(u32, &'static str)> {
    let [first, _] = program.second.slots[before.position as usize];
    if first & 0xF != 0 {
        return Some((13, "steps refused in partial mode for their op"));
    }
    if first >> 6 & 3 != 0 {
        return Some((13, "steps refused in partial mode for their A_OP"));
    }
    // Whether it was an increment the second program has judged.
    match deepest(before) {
        Some(counter) if counter >= MOST_COUNTER => {
            Some((14, "steps refused in partial mode for a counter at 5"))
        }
        _ => None,
    }
}

fn deepest(group: &Group) -> Option<u32> {
    let counter = |processor: &Processor| match processor {
        Processor::Active => None,
        Processor::Inactive(counter) => Some(*counter),
    };
    group.processors.iter().filter_map(counter).max()
}

/// One step of a group, compared with the second program's.
fn step(
    case: &mut Case,
    asked: impl Fn() -> String,
    program: &Loaded,
    masks: &Masks,
    (alu, predicate): (u32, u32),
    both: &mut Both,
) -> Agreed<Answer<Stepped>> {
    let (booleans, integers) = (masks.booleans, &masks.integers);
    let before = both.product;
    let group = &mut both.product;
    let product = group.step(&program.product, alu, predicate, booleans, integers);
    let product = product.map(|stepped| Stepped {
        jumped: stepped.jumped,
        position: stepped.position,
    });
    let group = &mut both.second;
    let expected = group.step_with(&program.second, alu, predicate, booleans, integers);
    let asked = || format!("in mode {:?}, {}", before.mode(), asked());
    case.agree_answer(asked, &product, &expected)?;
    both.agree(case, asked)?;
    if product.is_err() {
        case.untouched(asked, &both.product, &before)?;
    }
    Ok(expected)
}

/// Both groups run through all masks at once.
fn runs(case: &mut Case, program: &Loaded, mut pair: Pair, masks: &Masks) -> Agreement {
    let asked = || format!("run {}", about(program, masks));
    let full = ran(case, asked, program, masks, &mut pair.full)?;
    let partial = ran(case, asked, program, masks, &mut pair.partial)?;
    case.tally.mark("runs in both modes");
    if partial.is_ok() {
        case.agree(asked, &full, &partial)?;
        same_but_the_mode(case, asked, &pair)?;
        case.tally.mark("runs that both modes accepted");
    } else if full.is_ok() {
        case.tally.mark("runs that full mode alone accepted");
    }
    Ok(())
}

fn ran(
    case: &mut Case,
    asked: impl Fn() -> String,
    program: &Loaded,
    masks: &Masks,
    both: &mut Both,
) -> Agreed<Answer<Report>> {
    let (list, booleans, integers) = (&masks.list, masks.booleans, &masks.integers);
    let before = both.product;
    let group = &mut both.product;
    let product = group.run(&program.product, list, booleans, integers);
    let product = product.map(crate::flow::as_second);
    let expected = both
        .second
        .run_with(&program.second, list, booleans, integers);
    let asked = || format!("in mode {:?}, {}", before.mode(), asked());
    case.agree_answer(asked, &product, &expected)?;
    both.agree(case, asked)?;
    if product.is_err() {
        case.untouched(asked, &both.product, &before)?;
    }
    Ok(expected)
}
