//! What whole pictures of 64 KB cost as memory and room are moved about: `./bench --places`. In the table's lines both sides have the same
//! places, so that this part of the time is in both; here it is shown.

use super::picture::{small_window, Places, Scene, Way};
use crate::table::keep;
use std::time::Instant;

const SIZES: [u32; 5] = [1, 2, 4, 8, 16];
/// A side is timed so often in each place, and makes so many calls each time.
const REPEATS: usize = 60;
const CALLS: u32 = 5;

const LINE: usize = 64;
const PAGE: usize = 4096;

pub fn print() {
    println!("Whole tiled pictures of 64 KB: nanoseconds a KB, the least and the most over the places of memory and room");
    println!();
    println!(
        "{:<10} {:>4}  {:<34} {:>15} {:>15} {:>17} {:>13}",
        "", "size", "places", "product", "Rust", "memcpy", "product / Rust"
    );
    for size in SIZES {
        let mut scene = small_window(size);
        for way in [Way::Out, Way::In] {
            for (name, places) in groups() {
                row(way, size, name, &times(&mut scene, way, &places));
            }
        }
    }
}

/// Places at the begin of a line at all differences in a page; and all quarters of a line, as allocators give them.
fn groups() -> [(&'static str, Vec<Places>); 3] {
    let quarters = [16, 32, 48];
    [
        (
            "begins of lines, 64 differences",
            (0..PAGE / LINE).map(|line| (0, LINE * line)).collect(),
        ),
        (
            "memory inside a line",
            quarters.map(|at| (at, 1024)).to_vec(),
        ),
        (
            "room inside a line",
            quarters.map(|at| (0, 1024 + at)).to_vec(),
        ),
    ]
}

fn row(way: Way, size: u32, name: &str, times: &[[f64; 3]]) {
    let range = |values: Vec<f64>| {
        let least = values.iter().copied().fold(f64::MAX, f64::min);
        let most = values.iter().copied().fold(0.0, f64::max);
        (least, most)
    };
    let of = |side: usize| {
        let (least, most) = range(times.iter().map(|place| place[side]).collect());
        format!("{least:.1} to {most:.1}")
    };
    let (least, most) = range(times.iter().map(|place| place[0] / place[1]).collect());
    println!(
        "{:<10} {size:>4}  {name:<34} {:>15} {:>15} {:>17} {:>13}",
        way.name(),
        of(0),
        of(1),
        of(2),
        format!("{least:.2} to {most:.2}"),
    );
}

/// Nanoseconds a KB of the product, of Rust and of a plain copy in each of these places, by turns: the least of all repeats, since
/// what else runs on the machine only adds, for a while.
fn times(scene: &mut Scene, way: Way, places: &[Places]) -> Vec<[f64; 3]> {
    let mut least = vec![[f64::MAX; 3]; places.len()];
    for _ in 0..REPEATS {
        for (&places, least) in places.iter().zip(&mut least) {
            for (side, least) in least.iter_mut().enumerate() {
                *least = least.min(seconds(scene, way, places, side));
            }
        }
    }
    let a_kb = 1e9 / f64::from(64 * CALLS);
    least
        .iter()
        .map(|place| place.map(|time| time * a_kb))
        .collect()
}

fn seconds(scene: &mut Scene, way: Way, places: Places, side: usize) -> f64 {
    let begun = Instant::now();
    for _ in 0..CALLS {
        keep(match side {
            0 => u64::from(scene.by_product(way, places).is_err()),
            1 => u64::from(scene.by_rust(way, places).is_err()),
            _ => scene.by_memcpy(way, places),
        });
    }
    begun.elapsed().as_secs_f64()
}
