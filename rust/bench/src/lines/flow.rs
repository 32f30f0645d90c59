//! Steps and runs of a group, against both Rust groups: one with a counter a processor, one with bit planes.

use crate::table::Table;
use crate::way::Way;
use bench::fast::program::Program;
use bench::fast::{planes, processors};
use egretfold::Mode;

/// A run's masks: 64 steps, two masks each.
const RUN_MASKS: usize = 128;

/// A way, its program loaded for both sides, and its groups' size.
struct Loaded {
    lent: egretfold::Program,
    program: Program,
    way: Way,
    size: u32,
    mode: Mode,
}

impl Loaded {
    fn new(size: u32, way: Way) -> Loaded {
        Loaded {
            lent: egretfold::Program::load(&way.words).expect("a program"),
            program: Program::load(&way.words).expect("a program"),
            way,
            size,
            mode: Mode::Full,
        }
    }

    fn is_partial(&self) -> bool {
        self.mode == Mode::Partial
    }
}

/// What the product's group and both Rust groups can do, so that the same code times and checks all three.
trait Group: Sized {
    fn fresh(loaded: &Loaded) -> Self;
    /// Whether the group jumped, and its next position.
    fn step(&mut self, loaded: &Loaded, alu: u32, predicate: u32) -> Result<(bool, u32), u32>;
    /// The steps made, the first active processor and how many are active.
    fn run(&mut self, loaded: &Loaded, masks: &[u32]) -> Result<(u64, u32, u32), u32>;
    fn state(&self, loaded: &Loaded) -> State;
}

/// Position, active processors, branch counters, returns, and loops as the aL shown and the turns left in each.
type State = (u32, u32, Vec<u32>, Vec<u32>, (u32, Vec<u32>));

/// The loops of the product's group, as the Rust groups tell theirs.
fn loops(group: &egretfold::Group) -> (u32, Vec<u32>) {
    let loops = group.loops();
    let count = |open: &egretfold::Loop| match open {
        egretfold::Loop::Loop { count, .. } | egretfold::Loop::Rep { count } => *count,
    };
    (loops.al, loops.open.iter().map(count).collect())
}

macro_rules! group {
    ($group:ty, $program:ident, $mode:expr, $loops:expr) => {
        impl Group for $group {
            #[inline(always)]
            fn fresh(loaded: &Loaded) -> Self {
                <$group>::begin_in(loaded.size, $mode(loaded)).expect("a group")
            }

            #[inline(always)]
            fn step(
                &mut self,
                loaded: &Loaded,
                alu: u32,
                predicate: u32,
            ) -> Result<(bool, u32), u32> {
                let (booleans, integers) = (loaded.way.booleans, &loaded.way.integers);
                let program = &loaded.$program;
                let stepped = <$group>::step(self, program, alu, predicate, booleans, integers)?;
                Ok((stepped.jumped, stepped.position))
            }

            #[inline(always)]
            fn run(&mut self, loaded: &Loaded, masks: &[u32]) -> Result<(u64, u32, u32), u32> {
                let (booleans, integers) = (loaded.way.booleans, &loaded.way.integers);
                let report = <$group>::run(self, &loaded.$program, masks, booleans, integers)?;
                Ok((report.steps, report.first, report.active))
            }

            fn state(&self, loaded: &Loaded) -> State {
                let counters = (0..loaded.size).map(|processor| self.counter(processor));
                let returns = self.returns().to_vec();
                let (counters, loops) = (counters.collect(), $loops(self));
                (self.position(), self.active(), counters, returns, loops)
            }
        }
    };
}

group!(egretfold::Group, lent, |loaded: &Loaded| loaded.mode, loops);
group!(
    planes::Group,
    program,
    Loaded::is_partial,
    planes::Group::loops
);
group!(
    processors::Group,
    program,
    Loaded::is_partial,
    processors::Group::loops
);

pub fn add(table: &mut Table) {
    for size in [4, 32] {
        let way = |seed| Loaded::new(size, Way::new(size, seed));
        let ways: Vec<Loaded> = (11..15).map(way).collect();
        step_line::<processors::Group>(table, "processors", &ways);
        step_line::<planes::Group>(table, "planes", &ways);
        if size == 32 {
            run_line::<processors::Group>(table, "processors", &ways);
            run_line::<planes::Group>(table, "planes", &ways);
        }
    }
    let way = |seed| Loaded::new(32, Way::looping(32, seed));
    let ways: Vec<Loaded> = (15..19).map(way).collect();
    loop_line::<processors::Group>(table, "processors", &ways);
    loop_line::<planes::Group>(table, "planes", &ways);
    for mode in [Mode::Full, Mode::Partial] {
        mode_line::<processors::Group>(table, "processors", mode);
        mode_line::<planes::Group>(table, "planes", mode);
    }
}

/// The same steps over branches in either mode.
fn mode_line<Rust: Group>(table: &mut Table, by: &str, mode: Mode) {
    let told = match mode {
        Mode::Full => "full",
        Mode::Partial => "partial",
    };
    let name = format!("step over branches, {told} mode, Rust by {by}, a step");
    if table.wants(&name) {
        let way = |seed| Loaded {
            mode,
            ..Loaded::new(32, Way::branching(32, seed))
        };
        let ways: Vec<Loaded> = (19..23).map(way).collect();
        check::<Rust>(&ways);
        let (product, rust) = (|| steps::<egretfold::Group>(&ways), || steps::<Rust>(&ways));
        table.line(&name, count(&ways), product, rust);
    }
}

fn loop_line<Rust: Group>(table: &mut Table, by: &str, ways: &[Loaded]) {
    let size = ways[0].size;
    let name = format!("loop of 64 turns, {size} processors, Rust by {by}, a step");
    if table.wants(&name) {
        check::<Rust>(ways);
        let (product, rust) = (|| runs::<egretfold::Group>(ways), || runs::<Rust>(ways));
        table.line(&name, count(ways), product, rust);
    }
}

fn step_line<Rust: Group>(table: &mut Table, by: &str, ways: &[Loaded]) {
    let size = ways[0].size;
    let name = format!("step, {size} processors, Rust by {by}, a step");
    if table.wants(&name) {
        check::<Rust>(ways);
        let (product, rust) = (|| steps::<egretfold::Group>(ways), || steps::<Rust>(ways));
        table.line(&name, count(ways), product, rust);
    }
}

fn run_line<Rust: Group>(table: &mut Table, by: &str, ways: &[Loaded]) {
    let size = ways[0].size;
    let name = format!("run of 64, {size} processors, Rust by {by}, a step");
    if table.wants(&name) {
        check::<Rust>(ways);
        let (product, rust) = (|| runs::<egretfold::Group>(ways), || runs::<Rust>(ways));
        table.line(&name, count(ways), product, rust);
    }
}

/// How many steps the ways take.
fn count(ways: &[Loaded]) -> usize {
    lists(ways).map(|(_, list)| list.len() / 2).sum()
}

/// Every list of masks, with its way.
fn lists(ways: &[Loaded]) -> impl Iterator<Item = (&Loaded, &Vec<u32>)> {
    ways.iter().flat_map(|loaded| {
        let lists = loaded.way.lists.iter();
        lists.map(move |list| (loaded, list))
    })
}

/// Each list of masks from a fresh group to the program's end, step by step.
fn steps<G: Group>(ways: &[Loaded]) -> u64 {
    let mut sum = 0;
    for (loaded, list) in lists(ways) {
        let mut group = G::fresh(loaded);
        for pair in list.chunks_exact(2) {
            let stepped = group.step(loaded, pair[0], pair[1]);
            sum += stepped.map_or_else(u64::from, |(jumped, position)| {
                u64::from(jumped) + u64::from(position)
            });
        }
    }
    sum
}

/// The same in runs of 64 steps.
fn runs<G: Group>(ways: &[Loaded]) -> u64 {
    let mut sum = 0;
    for (loaded, list) in lists(ways) {
        let mut group = G::fresh(loaded);
        for masks in list.chunks(RUN_MASKS) {
            let report = group.run(loaded, masks);
            sum += report.map_or_else(u64::from, |(steps, first, active)| {
                steps + u64::from(first) + u64::from(active)
            });
        }
    }
    sum
}

/// Steps the product's group and a Rust one along the lists, and once past the end: equal answers and equal states. Then
/// the same by runs.
fn check<Rust: Group>(ways: &[Loaded]) {
    for (loaded, list) in lists(ways) {
        let size = loaded.size;
        let (mut product, mut rust) = (egretfold::Group::fresh(loaded), Rust::fresh(loaded));
        for pair in list.chunks_exact(2).chain([&[0, 0][..]]) {
            let by_product = Group::step(&mut product, loaded, pair[0], pair[1]);
            let by_rust = rust.step(loaded, pair[0], pair[1]);
            assert_eq!(by_product, by_rust, "step of a group of {size}");
            let (by_product, by_rust) = (product.state(loaded), rust.state(loaded));
            assert_eq!(by_product, by_rust, "state of a group of {size}");
        }
        let (mut product, mut rust) = (egretfold::Group::fresh(loaded), Rust::fresh(loaded));
        for masks in list.chunks(RUN_MASKS) {
            let by_product = Group::run(&mut product, loaded, masks);
            assert_eq!(
                by_product,
                rust.run(loaded, masks),
                "run of a group of {size}"
            );
            let (by_product, by_rust) = (product.state(loaded), rust.state(loaded));
            assert_eq!(by_product, by_rust, "state of a group of {size}");
        }
    }
}
