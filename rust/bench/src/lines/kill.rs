//! Kills of a group of 32: all its registers are asked, whoever is active.

use crate::inputs::Random;
use crate::table::Table;
use bench::fast::planes::Group;
use bench::fast::program::Program;

const PROCESSORS: u32 = 32;
/// How many lists of registers a pass goes through, each under every write mask.
const LISTS: usize = 32;
const WRITE_MASKS: u32 = 16;
/// One channel in this many is less than zero.
const NEGATIVE: u32 = 16;

/// The same kills for both sides: a fresh group for each.
struct Kills {
    lent: egretfold::Program,
    program: Program,
    lists: Vec<Vec<f32>>,
}

impl Kills {
    fn new() -> Kills {
        let words = [0x20, 0];
        let mut random = Random::new(23);
        let mut channel = |_| {
            let magnitude = f32::from_bits(random.word() >> 2);
            match random.word() % NEGATIVE {
                0 => -magnitude,
                _ => magnitude,
            }
        };
        let lists = (0..LISTS).map(|_| (0..4 * PROCESSORS).map(&mut channel).collect());
        Kills {
            lists: lists.collect(),
            lent: egretfold::Program::load(&words).expect("a program"),
            program: Program::load(&words).expect("a program"),
        }
    }

    /// Every list under every write mask.
    fn each(&self) -> impl Iterator<Item = (&[f32], u32)> {
        let lists = self.lists.iter();
        lists.flat_map(|list| (0..WRITE_MASKS).map(move |mask| (&list[..], mask)))
    }

    fn product(&self) -> u64 {
        let fresh = egretfold::Group::begin(PROCESSORS).expect("a group");
        let one = |(list, mask)| {
            let mut group = fresh;
            group
                .kill(&self.lent, list, mask)
                .map_or_else(u64::from, u64::from)
                + u64::from(group.active())
        };
        self.each().map(one).sum()
    }

    fn rust(&self) -> u64 {
        let fresh = Group::begin(PROCESSORS).expect("a group");
        let one = |(list, mask)| {
            let mut group = fresh;
            group
                .kill(&self.program, list, mask)
                .map_or_else(u64::from, u64::from)
                + u64::from(group.active())
        };
        self.each().map(one).sum()
    }

    /// Equal answers and equal masks, one kill after the other on the same group; then too few registers.
    fn check(&self) {
        let mut product = egretfold::Group::begin(PROCESSORS).expect("a group");
        let mut rust = Group::begin(PROCESSORS).expect("a group");
        for (list, mask) in self.each() {
            let (by_product, by_rust) = (
                product.kill(&self.lent, list, mask).map_err(u32::from),
                rust.kill(&self.program, list, mask),
            );
            assert_eq!(by_product, by_rust, "a kill under {mask}");
            assert_eq!(
                (product.active(), product.killed()),
                (rust.active(), rust.killed())
            );
            let short = &list[1..];
            assert_eq!(
                product.kill(&self.lent, short, mask).map_err(u32::from),
                rust.kill(&self.program, short, mask)
            );
            let over = mask + WRITE_MASKS;
            assert_eq!(
                product.kill(&self.lent, list, over).map_err(u32::from),
                rust.kill(&self.program, list, over)
            );
        }
    }
}

pub fn add(table: &mut Table) {
    let name = "kill of 32 registers, a kill";
    if table.wants(name) {
        let kills = Kills::new();
        kills.check();
        let count = LISTS * WRITE_MASKS as usize;
        table.line(name, count, || kills.product(), || kills.rust());
    }
}
