//! Cases of the ninth kind: a group takes steps, runs and kills in any order, and
//! its state is compared after each; the registers have floats of every class. Then
//! the maximum and the choice of registers, bit for bit.

use crate::case::{Agreed, Agreement, Case};
use crate::floats;
use crate::flow::{self, Given, Loaded, Masks};
use crate::groups::Both;
use crate::programs;
use egretfold::{lent, Mode};
use second::flow::{Group, Processor};

/// Refused calls after which a case has told enough.
const MOST_REFUSALS: u32 = 6;

/// A call for a group of the starting size: the bits of the registers, and the
/// write mask.
struct Asked {
    registers: Vec<u32>,
    mask: u32,
}

pub fn run(case: &mut Case) -> Agreement {
    floats::agree(case)?;
    let words = programs::any(&mut case.random);
    let program = flow::loaded(case, words)?;
    let fresh = if case.random.coin() {
        flow::begun(case)?
    } else {
        Some(in_partial_mode(case)?)
    };
    if let (Some(program), Some(both)) = (program, fresh) {
        let masks = flow::any_masks(&mut case.random);
        mixed(case, &program, both, &masks)?;
    }
    Ok(())
}

/// A group of any size in partial mode, in which kills are the same.
fn in_partial_mode(case: &mut Case) -> Agreed<Both> {
    let size = case.random.between(1, 32);
    let both = Both {
        product: egretfold::Group::begin_in(size, Mode::Partial).expect("a group"),
        second: Group::begin_in(size, Mode::Partial.number()).expect("a group"),
    };
    both.agree(case, || format!("begin a group of {size} in partial mode"))?;
    case.tally.mark("groups in partial mode");
    Ok(both)
}

/// Kills between steps and runs. Whoever was killed is never active, in the group
/// or missing from the killed again.
fn mixed(case: &mut Case, program: &Loaded, mut both: Both, masks: &Masks) -> Agreement {
    let cut_short = flow::other_program(case, program)?;
    let mut refusals = 0;
    let mut killed = 0;
    for (number, pair) in masks.list.chunks_exact(2).enumerate() {
        let program = match &cut_short {
            Some(other) if case.random.once_in(4) => other,
            _ => program,
        };
        let about = || format!("{number} of {}", flow::about(program, masks));
        if case.random.once_in(4) {
            let refused = kill(
                case,
                || format!("kill before step {}", about()),
                program,
                &mut both,
            )?;
            refusals += u32::from(refused);
        }
        let refusal = if case.random.once_in(4) {
            let asked = || format!("run at step {}", about());
            flow::run_portion(case, asked, program, &mut both, (pair, masks))?
        } else {
            let given = Given {
                program,
                masks: (pair[0], pair[1], masks.booleans),
                integers: &masks.integers,
            };
            flow::step(case, || format!("step {}", about()), &given, &mut both)?.0
        };
        refusals += u32::from(refusal.is_some());
        let group = both.product;
        let gone = group.killed();
        let still = (gone & killed, gone & group.active(), gone & group.mask());
        case.agree(
            || format!("the killed after step {}", about()),
            &still,
            &(killed, 0, 0),
        )?;
        killed = gone;
        if killed != 0 && refusal.is_none() {
            case.tally.mark("steps after a kill");
        }
        if refusals == MOST_REFUSALS {
            break;
        }
    }
    Ok(())
}

/// One kill of both groups; answers whether it was refused.
fn kill(
    case: &mut Case,
    asked: impl Fn() -> String,
    program: &Loaded,
    both: &mut Both,
) -> Agreed<bool> {
    let call = any_call(case, both);
    let Asked { registers, mask } = &call;
    let asked = || format!("{}, registers {registers:X?}, write mask {mask:X}", asked());
    let before = both.clone();
    let floats = floats::of_bits(registers);
    let product = both.product.kill(&program.product, &floats, *mask);
    let expected = both.second.kill(&program.second, registers, *mask);
    case.agree_answer(asked, &product, &expected)?;
    both.agree(case, asked)?;
    case.tally.mark("kills compared");
    count(case, &call, &before, &expected);
    if product.is_err() {
        let filled = [case.random.word()];
        let mut room = filled;
        let mut again = before.product;
        lent::group_kill(&mut again, &program.product, *mask, &floats, &mut room);
        case.untouched(asked, &room, &filled)?;
        let unchanged = (before.product, before.product);
        case.untouched(asked, &(both.product, again), &unchanged)?;
    }
    Ok(product.is_err())
}

/// Registers of which few or many channels are less than zero, and a write mask; once
/// in a while another number of floats, and a mask over 15.
fn any_call(case: &mut Case, both: &Both) -> Asked {
    let started = both.second.processors.len() as u32;
    let living = both.product.size();
    let floats = match case.random.below(24) {
        0 => 4 * living,
        1 => 4 * started - 1,
        2 => 4 * started + case.random.between(1, 4),
        3 => case.random.below(130),
        _ => 4 * started,
    };
    let one_in = case.random.one_of(&[1, 4, 32, 128]);
    let mask = match case.random.below(24) {
        0 => 16 + case.random.below(32),
        1 => case.random.word(),
        _ => case.random.below(16),
    };
    let random = &mut case.random;
    let one = |_| {
        if random.once_in(one_in) {
            floats::any(random)
        } else {
            floats::harmless(random)
        }
    };
    let registers = (0..floats).map(one).collect();
    Asked { registers, mask }
}

/// Counts what a kill was, for the tests that ask whether the mixture is telling.
fn count(case: &mut Case, call: &Asked, before: &Both, answer: &Result<u32, u32>) {
    let was = before.product;
    match answer {
        Ok(0) => case.tally.mark("kills that killed nobody"),
        Ok(killed) if *killed == was.mask() => case.tally.mark("kills that killed the whole group"),
        Ok(killed) if *killed == was.active() => case.tally.mark("kills that left only idle ones"),
        Ok(_) => case.tally.mark("kills that killed some"),
        Err(11) if call.registers.len() as u32 == 4 * was.size() => {
            case.tally
                .mark("kills refused for the living group's length");
        }
        Err(16) if call.mask > 15 => case
            .tally
            .mark("kills with two causes, of which 16 is first"),
        Err(13) if call.registers.len() != 4 * before.second.processors.len() => {
            case.tally
                .mark("kills with two causes, of which 13 is first");
        }
        Err(_) => {}
    }
    if answer.is_ok() {
        let idle = |(number, processor): (usize, &Processor)| {
            let register = &call.registers[4 * number..][..4];
            let in_group = was.mask() >> number & 1 == 1;
            let channel = |c: usize| call.mask >> c & 1 == 1 && f32::from_bits(register[c]) < 0.0;
            in_group && *processor != Processor::Active && (0..4).any(channel)
        };
        let processors = before.second.processors.iter().enumerate();
        if processors.filter(|one| idle(*one)).count() > 0 {
            case.tally.mark("kills that spared an idle one");
        }
    }
}
