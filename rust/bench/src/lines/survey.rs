//! Conditional tests in a buffer of 65,536 bytes, which is all that is lent: surveys of the whole buffer and of a part with ragged
//! edges, and single calls.

use super::{kind, lent};
use crate::inputs::{pairs, Random};
use crate::table::Table;
use bench::fast::layout::Layout;
use bench::fast::session::Session;
use bench::fast::survey::{conditional_test, survey};
use egretfold::headers::{SET_COND_OUT_FMT, SET_COND_TEST};
use egretfold::{Answer, Edition};
use std::cell::RefCell;

const BASE: u32 = 0x0123_4800;
const PITCH: u32 = 256;
const HEIGHT: u32 = 128;
/// Half of all numbers of 16 bits are less.
const VALUE: u32 = 0x8000;

/// Buffer, test and memory for both sides.
struct Scene {
    layout: Layout,
    product: egretfold::Session,
    rust: Session,
    memory: Vec<u8>,
}

impl Scene {
    fn new(tiled: bool, test: u32) -> Scene {
        let format = u32::from(tiled) << 16 | PITCH;
        let words = [SET_COND_OUT_FMT, BASE, format, HEIGHT, SET_COND_TEST, test];
        let mut product = egretfold::Session::new(Edition::First);
        let mut rust = Session::new();
        assert_eq!(product.feed(&words).refusal, None);
        assert_eq!(rust.feed(&words).refusal, None);
        let mut random = Random::new(12);
        Scene {
            layout: Layout {
                base: BASE,
                pitch: PITCH,
                height: HEIGHT,
                size: 2,
                tiled,
            },
            product,
            rust,
            memory: (0..65_536).map(|_| random.word() as u8).collect(),
        }
    }

    fn by_product(&self, domain: [u32; 4], room: &mut [u8]) -> Answer<u32> {
        self.product.survey(VALUE, domain, &self.memory, BASE, room)
    }

    fn by_rust(&self, domain: [u32; 4], room: &mut [u8]) -> Result<u32, u32> {
        survey(&self.rust, VALUE, domain, &self.memory, BASE, room)
    }

    fn one_by_product(&self, x: u32, y: u32) -> Answer<bool> {
        self.product
            .conditional_test(VALUE, x, y, &self.memory, BASE)
    }

    fn one_by_rust(&self, x: u32, y: u32) -> Result<bool, u32> {
        conditional_test(&self.rust, VALUE, x, y, &self.memory, BASE)
    }

    fn check(&self, domain: [u32; 4], pairs: usize) {
        let ([i0, j0, ..], above) = (domain, u32::from(u16::MAX) + 1);
        for value in [0, VALUE, above - 1, above, u32::MAX] {
            let (mut ours, mut theirs) = (vec![7; pairs], vec![7; pairs]);
            let (lent, first) = (&self.memory[..], BASE);
            let product = self.product.survey(value, domain, lent, first, &mut ours);
            let product = product.map_err(u32::from);
            let rust = survey(&self.rust, value, domain, lent, first, &mut theirs);
            assert_eq!((product, &ours), (rust, &theirs), "survey of {value}");
            let one = conditional_test(&self.rust, value, i0, j0, lent, first);
            assert_eq!(one.map(u8::from), Ok(ours[0]), "test of {value}");
        }
        for length in [pairs, pairs - 1] {
            let (mut ours, mut theirs) = (vec![7; length], vec![7; length]);
            let (product, rust) = (
                self.by_product(domain, &mut ours).map_err(u32::from),
                self.by_rust(domain, &mut theirs),
            );
            assert_eq!((product, ours), (rust, theirs), "survey of {domain:?}");
        }
    }
}

const WHOLE: [u32; 4] = [0, 0, PITCH - 1, HEIGHT - 1];
const RAGGED: [u32; 4] = [3, 5, 203, 103];

pub fn add(table: &mut Table) {
    for test in 0..8 {
        Scene::new(true, test).check(RAGGED, 201 * 99);
        Scene::new(false, test).check(RAGGED, 201 * 99);
    }
    for tiled in [false, true] {
        let scene = Scene::new(tiled, 1);
        survey_line(table, &scene, WHOLE, "whole buffer");
        survey_line(table, &scene, RAGGED, "ragged edges");
        single_line(table, &scene);
        beside_single_calls(table, &scene);
    }
}

fn survey_line(table: &mut Table, scene: &Scene, domain: [u32; 4], what: &str) {
    let [i0, j0, i1, j1] = domain;
    let (columns, rows) = (i1 - i0 + 1, j1 - j0 + 1);
    let kind = kind(&scene.layout);
    let name = format!("survey, {kind}, {what}, {columns} x {rows}, a pair");
    if !table.wants(&name) {
        return;
    }
    let pairs = (columns * rows) as usize;
    scene.check(domain, pairs);
    // one room, so that both sides have it in the same place
    let room = RefCell::new(vec![0; pairs]);
    table.line(
        &name,
        pairs,
        || {
            let passed = scene.by_product(domain, &mut room.borrow_mut());
            passed.map_or_else(u64::from, u64::from)
        },
        || {
            let passed = scene.by_rust(domain, &mut room.borrow_mut());
            passed.map_or_else(u64::from, u64::from)
        },
    );
}

/// 1 for a pair that passes, or the refusal's number.
fn counted<R: Into<u32>>(answer: Result<bool, R>) -> u64 {
    answer.map_or_else(|refusal| u64::from(refusal.into()), u64::from)
}

fn single_line(table: &mut Table, scene: &Scene) {
    let name = format!("conditional test, {}, a call", kind(&scene.layout));
    if !table.wants(&name) {
        return;
    }
    let pairs = pairs(&scene.layout, 13);
    for &(x, y) in &pairs {
        let (product, rust) = (scene.one_by_product(x, y), scene.one_by_rust(x, y));
        assert_eq!(product.map_err(u32::from), rust, "test of ({x}, {y})");
    }
    table.line(
        &name,
        pairs.len(),
        || {
            pairs
                .iter()
                .map(|&(x, y)| counted(scene.one_by_product(x, y)))
                .sum()
        },
        || {
            pairs
                .iter()
                .map(|&(x, y)| counted(scene.one_by_rust(x, y)))
                .sum()
        },
    );
}

/// What a survey saves: the same pairs asked one by one of the product.
fn beside_single_calls(table: &mut Table, scene: &Scene) {
    let name = format!(
        "survey, {}, beside single calls, a pair",
        kind(&scene.layout)
    );
    if !table.wants(&name) {
        return;
    }
    let pairs = (PITCH * HEIGHT) as usize;
    let mut room = vec![0; pairs];
    let one = |x, y| scene.one_by_product(x, y).map_or(0, u64::from);
    // Both know the same layout.
    assert_eq!(
        egretfold::layout(&lent(&scene.layout)).map(|window| window.span),
        Ok(65_536)
    );
    table.beside(
        &name,
        pairs,
        || scene.by_product(WHOLE, &mut room).map_or(0, u64::from),
        || {
            let rows = (0..HEIGHT).flat_map(|y| (0..PITCH).map(move |x| (x, y)));
            rows.map(|(x, y)| one(x, y)).sum()
        },
    );
}
