//! Cases of the fifth kind: a program is loaded and a group begun; the group is
//! stepped and its state compared after every step, its loops and aL with it; then
//! a fresh group is run through the same masks in random portions.

use crate::case::{Agreed, Agreement, Case};
use crate::groups::{seen, seen_in_second, Both};
use crate::loops;
use crate::programs;
use crate::random::Random;
use crate::turns::Turn;
use egretfold::lengths::{CELLS, SLOTS};
use egretfold::{lent, Mode};
use second::flow::{Group, Processor, Program, Report, Stepped};
use second::Answer;

/// Refused steps or runs after which a case has told enough.
const MOST_REFUSALS: u32 = 3;

/// A flow program as both programs have loaded it.
pub struct Loaded {
    pub product: egretfold::Program,
    pub second: Program,
    words: Vec<u32>,
}

/// Two masks for each step, alu then predicate; one boolean word and one list of
/// integer words for all.
pub struct Masks {
    pub list: Vec<u32>,
    pub booleans: u32,
    pub integers: Vec<u32>,
}

pub fn run(case: &mut Case) -> Agreement {
    let words = programs::any(&mut case.random);
    let program = loaded(case, words)?;
    let fresh = begun(case)?;
    // The two are judged each by itself; steps need both.
    if let (Some(program), Some(fresh)) = (program, fresh) {
        let masks = any_masks(&mut case.random);
        let stepped = step_by_step(case, &program, &fresh, &masks)?;
        let ran = in_portions(case, &program, &fresh, &masks)?;
        if let Some(stepped) = stepped {
            let asked = || format!("the end of all steps of {}", about(&program, &masks));
            case.agree(asked, &seen(&ran.product), &seen(&stepped.product))?;
        }
    }
    Ok(())
}

/// A program loaded by both: its slots, or the refusal.
pub fn loaded(case: &mut Case, words: Vec<u32>) -> Agreed<Option<Loaded>> {
    let asked = || format!("load {words:X?}");
    let product = egretfold::Program::load(&words);
    let second = Program::load(&words);
    let ours = product.as_ref().map(slots_of_product).map_err(|n| *n);
    let theirs = second.as_ref().map(slots_of_second).map_err(|n| *n);
    case.agree_answer(asked, &ours, &theirs)?;
    if product.is_err() {
        store_untouched(case, &words)?;
    }
    Ok(product
        .ok()
        .zip(second.ok())
        .map(|(product, second)| Loaded {
            product,
            second,
            words,
        }))
}

/// How many slots run, how many there are, and the slots' words.
type Slots = (u32, usize, Vec<[u32; 2]>);

fn slots_of_product(program: &egretfold::Program) -> Slots {
    let slots = (0..SLOTS).map(|number| program.slot(number)).collect();
    (program.slots(), SLOTS, without_plain_end(slots))
}

fn slots_of_second(program: &Program) -> Slots {
    let slots = program.slots.clone();
    (program.running, slots.len(), without_plain_end(slots))
}

/// Cuts the plain slots off the end, where most of the store is plain, so that a
/// printed case stays readable. Two stores of one length that are equal without
/// them are equal.
fn without_plain_end(mut slots: Vec<[u32; 2]>) -> Vec<[u32; 2]> {
    while slots.last() == Some(&[0x20, 0]) {
        slots.pop();
    }
    slots
}

fn store_untouched(case: &mut Case, words: &[u32]) -> Agreement {
    let filled = (
        [case.random.word(); SLOTS],
        [case.random.word(); SLOTS],
        [7],
    );
    let mut room = filled;
    lent::program_load(words, &mut room.0, &mut room.1, &mut room.2);
    let asked = || format!("a refused load of {} words", words.len());
    case.untouched(asked, &room, &filled)
}

/// A group begun by both, or the refusal.
pub fn begun(case: &mut Case) -> Agreed<Option<Both>> {
    let size = match case.random.below(64) {
        0 => 0,
        1 => 33,
        2 => case.random.word(),
        3..=15 => 32,
        _ => case.random.between(1, 32),
    };
    let asked = || format!("begin a group of {size}");
    let product = egretfold::Group::begin(size);
    let second = Group::begin(size);
    let ours = product.as_ref().map(seen).map_err(|n| *n);
    let theirs = second.as_ref().map(seen_in_second).map_err(|n| *n);
    case.agree_answer(asked, &ours, &theirs)?;
    if product.is_err() {
        let filled = [case.random.word(); CELLS];
        let mut cells = filled;
        lent::group_begin(size, Mode::Full.number(), &mut cells);
        case.untouched(asked, &cells, &filled)?;
    }
    Ok(product
        .ok()
        .zip(second.ok())
        .map(|(product, second)| Both { product, second }))
}

pub fn any_masks(random: &mut Random) -> Masks {
    let most = random.one_of(&[8, 48, 96, 160]);
    // An odd list ends with an alu without its predicate.
    let count = random.between(0, most);
    Masks {
        list: (0..count).map(|_| random.mask()).collect(),
        booleans: random.mask(),
        integers: loops::integers(random),
    }
}

pub fn about(program: &Loaded, masks: &Masks) -> String {
    let (words, Masks { list, booleans, .. }) = (&program.words, masks);
    let integers = &masks.integers;
    format!(
        "program {words:X?}, masks {list:X?}, booleans {booleans:X}, integer words {integers:X?}"
    )
}

/// Steps through the masks. Answers the groups at the end, where they came there
/// without a refusal other than the program's end, and under one program only:
/// then a run must end there too.
fn step_by_step(
    case: &mut Case,
    program: &Loaded,
    fresh: &Both,
    masks: &Masks,
) -> Agreed<Option<Both>> {
    let other = other_program(case, program)?;
    let mut both = fresh.clone();
    let mut straight = other.is_none();
    let mut looped = false;
    let mut refusals = 0;
    for (number, pair) in masks.list.chunks_exact(2).enumerate() {
        let program = match &other {
            Some(other) if case.random.once_in(4) => other,
            _ => program,
        };
        let asked = || format!("step {number} of {}", about(program, masks));
        let given = Given {
            program,
            masks: (pair[0], pair[1], masks.booleans),
            integers: &masks.integers,
        };
        let (refusal, of_a_loop) = step(case, asked, &given, &mut both)?;
        looped |= of_a_loop;
        straight &= matches!(refusal, None | Some(16));
        refusals += u32::from(refusal.is_some());
        if refusals == MOST_REFUSALS {
            break;
        }
    }
    if looped {
        case.tally.mark("programs stepped through a loop's slot");
    }
    Ok(if straight { Some(both) } else { None })
}

/// Once in eight cases, another program for some of the steps: a group may be
/// stepped under any. Half of these are the same program cut short, under which a
/// position or a stored return may lie past the end.
pub fn other_program(case: &mut Case, program: &Loaded) -> Agreed<Option<Loaded>> {
    if !case.random.once_in(8) {
        return Ok(None);
    }
    let words = if case.random.coin() {
        let slots = case.random.between(1, program.second.running);
        program.words[..2 * slots as usize].to_vec()
    } else {
        programs::any(&mut case.random)
    };
    loaded(case, words)
}

/// What a step is given besides the group.
pub struct Given<'a> {
    pub program: &'a Loaded,
    pub masks: (u32, u32, u32),
    pub integers: &'a [u32],
}

/// One step of both groups; answers its refusal, if it was refused, and whether it
/// was one of a loop's slot.
pub fn step(
    case: &mut Case,
    asked: impl Fn() -> String,
    given: &Given,
    both: &mut Both,
) -> Agreed<(Option<u32>, bool)> {
    let Given {
        program,
        masks,
        integers,
    } = *given;
    let (alu, predicate, booleans) = masks;
    let before = both.clone();
    let product = both
        .product
        .step(&program.product, alu, predicate, booleans, integers);
    let product = product.map(|stepped| Stepped {
        jumped: stepped.jumped,
        position: stepped.position,
    });
    let expected = both
        .second
        .step_with(&program.second, alu, predicate, booleans, integers);
    case.agree_answer(&asked, &product, &expected)?;
    both.agree(case, &asked)?;
    case.tally.mark("steps compared");
    let turn = Turn {
        program: &program.second,
        masks,
        integers,
        before: &before.second,
        after: &both.second,
        answer: &expected,
    };
    if !turn.count(case) {
        count_step(case, &expected, &both.second);
    }
    if turn.is_of_op_0() {
        let mut alone = before.second.clone();
        let answer = alone.step(&program.second, alu, predicate, booleans);
        let asked = || format!("by document 01 alone, {}", asked());
        case.agree(asked, &(&expected, &both.second), &(&answer, &alone))?;
    }
    if product.is_err() {
        let before = before.product;
        let filled = [case.random.word(); 2];
        let mut room = filled;
        let mut again = before;
        lent::group_step(&mut again, &program.product, masks, integers, &mut room);
        case.untouched(&asked, &room, &filled)?;
        case.untouched(&asked, &(both.product, again), &(before, before))?;
    }
    Ok((expected.err(), turn.is_of_a_loop()))
}

/// Counts what a step was apart from loops, for the tests that ask whether the
/// mixture is telling.
fn count_step(case: &mut Case, stepped: &Answer<Stepped>, group: &Group) {
    let count =
        |which: fn(&Processor) -> bool| group.processors.iter().filter(|p| which(p)).count();
    let idle = count(|processor| *processor != Processor::Active);
    match stepped {
        Ok(stepped) => {
            case.tally
                .mark(if stepped.jumped { "jumps" } else { "stays" });
            if idle == group.processors.len() {
                case.tally.mark("steps that left nobody active");
            } else if idle > 0 {
                case.tally.mark("steps that left some waiting");
            }
            if group.returns.len() > 1 {
                case.tally.mark("steps that left two returns or more");
            }
        }
        // A refused step leaves the group as it was, with what caused the 14.
        Err(14) if count(|p| *p == Processor::Inactive(31)) > 0 => {
            case.tally.mark("steps refused with a counter at its limit");
        }
        Err(14) => case.tally.mark("steps refused for the return stack"),
        Err(15) => case.tally.mark("steps refused for their jump"),
        Err(13) => case.tally.mark("steps refused for their words"),
        Err(_) => {}
    }
}

/// Runs through the masks, some at a time. A portion may have one mask more, an
/// alu without its predicate, which then begins the next portion.
fn in_portions(case: &mut Case, program: &Loaded, fresh: &Both, masks: &Masks) -> Agreed<Both> {
    let mut both = fresh.clone();
    let mut left = &masks.list[..];
    let mut refusals = 0;
    loop {
        let most = (left.len() as u32 / 2).min(case.random.one_of(&[1, 4, 16, 80]));
        let count = 2 * case.random.between(0, most) as usize;
        let odd = case.random.below(2) as usize;
        let portion = &left[..(count + odd).min(left.len())];
        let asked = || format!("run {portion:X?} of {}", about(program, masks));
        let refusal = run_portion(case, asked, program, &mut both, (portion, masks))?;
        refusals += u32::from(refusal.is_some());
        left = &left[count..];
        if left.len() < 2 || refusals == MOST_REFUSALS {
            return Ok(both);
        }
    }
}

/// One run of both groups; answers its refusal, if it was refused.
pub fn run_portion(
    case: &mut Case,
    asked: impl Fn() -> String,
    program: &Loaded,
    both: &mut Both,
    (portion, masks): (&[u32], &Masks),
) -> Agreed<Option<u32>> {
    let (booleans, integers) = (masks.booleans, &masks.integers);
    let before = both.product;
    let product = both
        .product
        .run(&program.product, portion, booleans, integers);
    let product = product.map(as_second);
    let expected = both
        .second
        .run_with(&program.second, portion, booleans, integers);
    case.agree_answer(&asked, &product, &expected)?;
    both.agree(case, &asked)?;
    case.tally.mark("runs compared");
    if product.is_err() {
        let filled = [case.random.long(); 3];
        let mut room = filled;
        let mut again = before;
        lent::group_run(
            &mut again,
            &program.product,
            portion,
            booleans,
            integers,
            &mut room,
        );
        case.untouched(&asked, &room, &filled)?;
        case.untouched(&asked, &(both.product, again), &(before, before))?;
    }
    Ok(expected.err())
}

/// A run's report of the product as the second program has it.
pub(crate) fn as_second(report: egretfold::Report) -> Report {
    Report {
        steps: report.steps,
        first: report.first,
        active: report.active,
    }
}
