//! Timing and the printed table. A line has two passes, the product's and Rust's, that do the same work on the same inputs.
//! The same lines can be only named, or run once each for a program that counts their instructions (tools/counts).

use crate::targets;
use std::fs;
use std::sync::atomic::{AtomicU64, Ordering};
use std::time::{Duration, Instant};

/// A repeat is timed in short slices: on a busy machine most of them still run from end to end without a break, and the
/// median is one of those.
const SLICE: Duration = Duration::from_millis(1);
const SLICES: usize = 6;
/// How long a side runs before it is timed.
const WARM_UP: Duration = Duration::from_millis(10);

#[derive(Clone, Copy, PartialEq, Eq)]
pub enum Mode {
    /// Each line is timed so many times.
    Times(usize),
    /// Each line is run once on either side.
    Once,
    /// The lines are only named.
    Names,
}

pub struct Table {
    mode: Mode,
    only: String,
    rows: Vec<Row>,
}

struct Row {
    name: String,
    ratio: f64,
    /// Whether the other side is fast Rust that does the same.
    by_rust: bool,
}

impl Table {
    /// Prints the head of a table of times.
    pub fn begin(mode: Mode, only: String) -> Table {
        if let Mode::Times(repeats) = mode {
            head(repeats);
        }
        Table {
            mode,
            only,
            rows: Vec::new(),
        }
    }

    /// Whether a line is run. Where the lines are only named, it is named now, and isn't.
    pub fn wants(&self, name: &str) -> bool {
        let wanted = name.contains(&self.only);
        match self.mode {
            Mode::Times(_) => wanted,
            // a copy or single calls are no rival, and single calls have lines of their own
            Mode::Once => wanted && !name.contains(", beside "),
            Mode::Names => {
                if wanted {
                    println!("{name}");
                }
                false
            }
        }
    }

    /// The same for a line that goes the way of a shorter one on more memory: a count would tell nothing new.
    pub fn wants_long(&self, name: &str) -> bool {
        self.wants(name) && self.mode != Mode::Once
    }

    /// Times a line and prints it. `units` is how many words, calls or steps one pass makes; a pass gives a sum over its
    /// answers, which must be the same on both sides.
    pub fn line(
        &mut self,
        name: &str,
        units: usize,
        mut product: impl FnMut() -> u64,
        mut rust: impl FnMut() -> u64,
    ) {
        if self.mode == Mode::Once {
            println!("{units} {name}");
        }
        let sums = (first(&mut product), first(&mut rust));
        assert_eq!(sums.0, sums.1, "{name}: the answers' sums differ");
        let repeats = match self.mode {
            Mode::Times(repeats) => repeats,
            _ => return,
        };
        let product_rounds = warm_up(&mut product);
        let rust_rounds = warm_up(&mut rust);
        let (mut product_times, mut rust_times) = (Vec::new(), Vec::new());
        for repeat in 0..repeats {
            // the two sides take turns in going first
            if repeat % 2 == 0 {
                product_times.extend(slices(&mut product, product_rounds));
                rust_times.extend(slices(&mut rust, rust_rounds));
            } else {
                rust_times.extend(slices(&mut rust, rust_rounds));
                product_times.extend(slices(&mut product, product_rounds));
            }
        }
        let per_unit = 1e9 / units as f64;
        self.row(
            name,
            median(product_times) * per_unit,
            median(rust_times) * per_unit,
        );
    }

    /// A line whose other side does less than the product or does it another way, such as a plain copy: it is printed with the
    /// others, and the last line doesn't count it.
    pub fn beside(
        &mut self,
        name: &str,
        units: usize,
        product: impl FnMut() -> u64,
        other: impl FnMut() -> u64,
    ) {
        self.line(name, units, product, other);
        if let Some(row) = self.rows.last_mut() {
            row.by_rust = false;
        }
    }

    fn row(&mut self, name: &str, product: f64, rust: f64) {
        // rounded first, so that the last line counts what the table shows
        let ratio = (product / rust * 100.0).round() / 100.0;
        println!("{name:<58} {product:>11.2} {rust:>11.2} {ratio:>8.2}");
        let name = name.to_string();
        self.rows.push(Row {
            name,
            ratio,
            by_rust: true,
        });
    }

    /// Prints the table's last line, and what was asked for.
    pub fn end(self) {
        if self.mode == Mode::Names || self.mode == Mode::Once {
            return;
        }
        let rows: Vec<&Row> = self.rows.iter().filter(|row| row.by_rust).collect();
        let low = rows.iter().filter(|row| row.ratio <= 1.0).count();
        let worst = rows.iter().max_by(|a, b| a.ratio.total_cmp(&b.ratio));
        println!();
        match worst {
            Some(row) => println!(
                "{low} of {} lines at or below 1.00; worst ratio {:.2}: {}",
                rows.len(),
                row.ratio,
                row.name
            ),
            None => println!("no line has that in its name"),
        }
        let ratios = self.rows.into_iter().map(|row| (row.name, row.ratio));
        targets::print(&ratios.collect::<Vec<_>>());
    }
}

/// Prints the head of a table of times.
fn head(repeats: usize) {
    println!("Egretfold through its C boundary beside fast Rust: nanoseconds, and product / Rust");
    println!("{}; {}", processor(), env!("BENCH_RUSTC"));
    println!(
        "Medians over {repeats} interleaved repeats of {SLICES} slices of about {} ms each.",
        SLICE.as_millis()
    );
    println!("The product is called through safe wrappers that inline down to its C functions; Rust's entries");
    println!("are marked #[inline(never)], so that on both sides a call stays a call. Both judge all refusals.");
    println!();
    println!(
        "{:<58} {:>11} {:>11} {:>8}",
        "line", "product ns", "Rust ns", "ratio"
    );
}

/// A pass whose instructions tools/counts adds up, by this name, from the call to the return; then a mark.
fn first(pass: &mut dyn FnMut() -> u64) -> u64 {
    let sum = counted_pass(pass);
    counted_mark();
    sum
}

#[inline(never)]
fn counted_pass(pass: &mut dyn FnMut() -> u64) -> u64 {
    let sum = pass();
    keep(sum);
    sum
}

/// Where tools/counts writes one sum down and begins the next, by this name.
#[inline(never)]
fn counted_mark() {
    keep(1);
}

/// Runs a pass until it is warm; gives how many passes make a slice.
fn warm_up(pass: &mut impl FnMut() -> u64) -> usize {
    let begun = Instant::now();
    let mut passes = 0;
    while begun.elapsed() < WARM_UP {
        keep(pass());
        passes += 1;
    }
    let one = begun.elapsed().as_secs_f64() / f64::from(passes);
    (SLICE.as_secs_f64() / one).ceil() as usize
}

/// The seconds of one pass, in each slice of a repeat.
fn slices(pass: &mut impl FnMut() -> u64, rounds: usize) -> [f64; SLICES] {
    [(); SLICES].map(|()| {
        let begun = Instant::now();
        for _ in 0..rounds {
            keep(pass());
        }
        begun.elapsed().as_secs_f64() / rounds as f64
    })
}

/// Uses a pass's sum, so that the compiler can't leave the pass out. (`std::hint::black_box` is younger than the oldest
/// compiler that this builds with.)
pub fn keep(sum: u64) {
    static KEPT: AtomicU64 = AtomicU64::new(0);
    KEPT.fetch_xor(sum, Ordering::Relaxed);
}

fn median(mut times: Vec<f64>) -> f64 {
    times.sort_by(f64::total_cmp);
    times[times.len() / 2]
}

/// The processor's name, as the system tells it.
fn processor() -> String {
    let told = fs::read_to_string("/proc/cpuinfo").unwrap_or_default();
    let line = told.lines().find(|line| line.starts_with("model name"));
    let name = line.and_then(|line| line.split_once(':'));
    name.map_or("unknown processor".to_string(), |(_, name)| {
        name.trim().to_string()
    })
}
