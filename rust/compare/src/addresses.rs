//! Cases of the first kind: a layout is judged, a pair of it translated, with its
//! run, the bytes of the pair's element located back, and an address of any kind located.

use crate::case::{Agreed, Agreement, Case};
use crate::layouts::{self, for_product};
use egretfold::lent;
use second::address;
use second::layout::{judge, Layout};

pub fn run(case: &mut Case) -> Agreement {
    let layout = layouts::any(&mut case.random);
    judged(case, &layout)?;
    let (x, y) = layouts::pair(&mut case.random, &layout);
    if let Some(address) = translated(case, &layout, x, y)? {
        case.tally.mark("pairs accepted");
        case.tally.mark(layouts::shape(&layout));
        located_back(case, &layout, (x, y), address)?;
    }
    let address = layouts::address(&mut case.random, &layout);
    located(case, &layout, address)?;
    Ok(())
}

/// The layout's answer: its row step and span, or the refusal.
fn judged(case: &mut Case, layout: &Layout) -> Agreement {
    let asked = || format!("layout {layout:?}");
    let window = egretfold::layout(&for_product(layout));
    let product = window.map(|window| (window.step, u64::from(window.span)));
    let expected = judge(layout).map(|window| (window.step, window.span));
    case.agree_answer(asked, &product, &expected)?;
    if product.is_err() {
        let filled = [case.random.word(); 2];
        let mut room = filled;
        lent::layout(&for_product(layout), &mut room);
        case.untouched(asked, &room, &filled)?;
    }
    Ok(())
}

/// The pair's address, where both programs accept it.
fn translated(case: &mut Case, layout: &Layout, x: u32, y: u32) -> Agreed<Option<u32>> {
    let asked = || format!("translate ({x}, {y}) of {layout:?}");
    let answer = egretfold::translate(&for_product(layout), x, y);
    let product = answer.map(|at| (at.address, at.run));
    let expected = address::translate_run(layout, x, y).map(|at| (at.address, at.run));
    case.agree_answer(asked, &product, &expected)?;
    if product.is_err() {
        let filled = [case.random.word(); 2];
        let mut room = filled;
        lent::translate(&for_product(layout), x, y, &mut room);
        case.untouched(asked, &room, &filled)?;
    }
    Ok(product.ok().map(|(address, _)| address))
}

/// The element's bytes lead back to their pair: all of them once in eight cases,
/// else one, since the second program searches for its answer.
fn located_back(case: &mut Case, layout: &Layout, pair: (u32, u32), address: u32) -> Agreement {
    let every = case.random.once_in(8);
    let one = case.random.below(layout.size);
    let places = if every { 0..layout.size } else { one..one + 1 };
    for place in places {
        let found = located(case, layout, address + place)?;
        let asked = || format!("locate byte {place} of {pair:?} of {layout:?}");
        case.agree(asked, &found, &Some((pair.0, pair.1, place)))?;
        case.tally.mark("bytes located back");
    }
    Ok(())
}

/// The pair and place of the byte at the address, where both programs find one.
fn located(case: &mut Case, layout: &Layout, address: u32) -> Agreed<Option<(u32, u32, u32)>> {
    let asked = || format!("locate {address} of {layout:?}");
    let product = egretfold::locate(&for_product(layout), address);
    case.agree_answer(asked, &product, &address::locate(layout, address))?;
    if product.is_err() {
        let filled = [case.random.word(); 3];
        let mut room = filled;
        lent::locate(&for_product(layout), address, &mut room);
        case.untouched(asked, &room, &filled)?;
    }
    Ok(product.ok())
}
