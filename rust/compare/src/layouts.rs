//! Layouts, pairs and addresses for the cases: mostly good ones, with many at the
//! edges of document 01's rules, and some that nobody would ask.

use crate::random::Random;
use second::layout::{judge, Layout, Window};

pub const SIZES: [u32; 5] = [1, 2, 4, 8, 16];

/// Document 01's tiles for the five sizes, width and height. Only used to find
/// arguments near their edges: no answer is reckoned from it.
const TILES: [(u32, u32); 5] = [(64, 32), (32, 32), (32, 16), (16, 16), (16, 8)];

/// The layout as the boundary takes it.
pub fn for_product(layout: &Layout) -> egretfold::Layout {
    egretfold::Layout {
        base: layout.base,
        pitch: layout.pitch,
        height: layout.height,
        size: layout.size,
        tiled: layout.tiled,
    }
}

/// Names for the ten shapes of a good layout, five sizes tiled or linear.
pub const SHAPES: [[&str; 2]; 5] = [
    ["linear, 1 byte", "tiled, 1 byte"],
    ["linear, 2 bytes", "tiled, 2 bytes"],
    ["linear, 4 bytes", "tiled, 4 bytes"],
    ["linear, 8 bytes", "tiled, 8 bytes"],
    ["linear, 16 bytes", "tiled, 16 bytes"],
];

/// The name of an accepted layout's shape.
pub fn shape(layout: &Layout) -> &'static str {
    // An accepted layout's size is a power of two, from 1 to 16.
    let line = layout.size.trailing_zeros() as usize;
    SHAPES[line][usize::from(layout.tiled)]
}

/// A layout of any kind, malformed ones included.
pub fn any(random: &mut Random) -> Layout {
    let good = SIZES[random.below(5) as usize];
    let mut layout = with_size(random, good, one_in(30));
    if random.once_in(40) {
        layout.size = random.one_of(&[0, 3, 5, 6, 7, 9, 12, 15, 17, 24, 32, 64, 256]);
    }
    if random.once_in(400) {
        layout.size = random.word();
    }
    layout
}

/// A layout with a good size, whose other arguments are at an edge or malformed
/// as often as `spoiled` says.
pub fn with_size(random: &mut Random, size: u32, spoiled: Spoiled) -> Layout {
    let tiled = random.coin();
    let (width, rows) = tile(size);
    let unit = if tiled { width } else { 32 / size };
    let mut layout = Layout {
        base: 0,
        pitch: pitch(random, unit, spoiled),
        height: height(random, rows, spoiled),
        size,
        tiled,
    };
    layout.base = base(random, &layout, spoiled);
    layout
}

/// How often an argument leaves the good ones.
#[derive(Clone, Copy)]
pub struct Spoiled(u32);

/// Once in this many arguments on average.
pub fn one_in(times: u32) -> Spoiled {
    Spoiled(times)
}

/// Width and height of the tile for a good size.
pub fn tile(size: u32) -> (u32, u32) {
    let line = SIZES.iter().position(|good| *good == size);
    TILES[line.expect("one of the five sizes")]
}

/// The size itself, or one of the five where it is none of them.
pub fn nearest_size(size: u32) -> u32 {
    SIZES.into_iter().find(|good| *good == size).unwrap_or(4)
}

/// A pitch: small, anywhere, or beside a multiple of the unit that it is cut to.
fn pitch(random: &mut Random, unit: u32, spoiled: Spoiled) -> u32 {
    if random.once_in(spoiled.0) {
        return odd_pitch(random);
    }
    match random.below(8) {
        0 => 4 * random.between(1, 16),
        1 => 4 * random.below(1025),
        2 => random.one_of(&[4064, 4092, 4096, 4100, 4108, 4112, 4124, 4128, 4156, 4160]),
        3 => near_multiple(random, unit, 4096 / unit, 4),
        _ => near_multiple(random, unit, 12, 4),
    }
}

fn odd_pitch(random: &mut Random) -> u32 {
    match random.below(6) {
        0 => 0,
        1 => random.one_of(&[8184, 8188, 8192, 8196, 16384]),
        2 => random.below(8192),
        3 => 4 * random.below(2048),
        4 => random.one_of(&[1, 2, 3, 5, 29, 31, 33, 63, 65, 4095, 4097, 8189, 8191]),
        _ => random.word(),
    }
}

/// One to `most` times the unit, or a neighbour a step away, never below 0.
fn near_multiple(random: &mut Random, unit: u32, most: u32, step: u32) -> u32 {
    let number = unit * random.between(1, most);
    match random.below(4) {
        0 => number.saturating_sub(step),
        1 => number + step,
        _ => number,
    }
}

fn height(random: &mut Random, rows: u32, spoiled: Spoiled) -> u32 {
    if random.once_in(spoiled.0) {
        return odd_height(random);
    }
    match random.below(8) {
        0 => 1,
        1 => random.one_of(&[4095, 4096]),
        2 => random.between(1, 4096),
        3 | 4 => near_multiple(random, rows, 4, 1).max(1),
        _ => random.between(1, 70),
    }
}

fn odd_height(random: &mut Random) -> u32 {
    match random.below(4) {
        0 => 0,
        1 => random.one_of(&[4097, 4098, 8191, 8192, 65536]),
        2 => random.between(4000, 9000),
        _ => random.word(),
    }
}

/// A base: low, anywhere, at the very top of the addresses, or malformed.
fn base(random: &mut Random, layout: &Layout, spoiled: Spoiled) -> u32 {
    if random.once_in(spoiled.0) {
        return odd_base(random);
    }
    match random.below(8) {
        0 => 0,
        1 => top_base(random, layout),
        2 => random.below(1 << 20) << 11,
        3 => random.below(1 << 21) << 11,
        _ => random.below(64) << 11,
    }
}

fn odd_base(random: &mut Random) -> u32 {
    match random.below(4) {
        0 => random.one_of(&[1, 1024, 2047, 2049, 4095]),
        1 => (random.below(1 << 21) << 11) | (1 << random.below(11)),
        2 => (random.below(4) << 11).wrapping_neg(),
        _ => random.word(),
    }
}

/// The last base whose span still ends at 2^32 or below, or one beside it.
fn top_base(random: &mut Random, layout: &Layout) -> u32 {
    let low = Layout { base: 0, ..*layout };
    let span = match judge(&low) {
        Ok(window) => window.span,
        Err(_) => 2048,
    };
    let last = ((1u64 << 32) - span) as u32 & !2047;
    match random.below(4) {
        0 => last.wrapping_add(2048),
        1 => last.saturating_sub(2048),
        _ => last,
    }
}

/// A pair inside the window, at its edge, or anywhere at all.
pub fn pair(random: &mut Random, layout: &Layout) -> (u32, u32) {
    let window = judge(layout).unwrap_or(Window { step: 64, span: 0 });
    let height = layout.height.max(1);
    match random.below(16) {
        0 => (random.word(), random.word()),
        1 => (random.one_of(&[u32::MAX, 4096, 8192, 65536]), 0),
        2 => (0, random.one_of(&[u32::MAX, 4096, 8192, 65536])),
        3..=5 => edge_pair(random, layout, window.step),
        _ => (random.below(window.step), random.below(height)),
    }
}

fn edge_pair(random: &mut Random, layout: &Layout, step: u32) -> (u32, u32) {
    let (pitch, height) = (layout.pitch, layout.height);
    let columns = [0, 1, step - 1, step, step.wrapping_add(1), pitch, pitch / 2];
    let rows = [0, 1, height.wrapping_sub(1), height, height / 2];
    (random.one_of(&columns), random.one_of(&rows))
}

/// An address inside the span, around its ends, or anywhere at all.
pub fn address(random: &mut Random, layout: &Layout) -> u32 {
    let span = judge(layout).map_or(4096, |window| window.span);
    // Below 2^32 or exactly there, where the difference below is right again.
    let end = (u64::from(layout.base) + span) as u32;
    match random.below(8) {
        0 => random.word(),
        1 => layout.base.wrapping_sub(random.between(1, 64)),
        2 => layout.base.wrapping_add(random.below(64)),
        3 => end.wrapping_sub(random.between(1, 64)),
        4 => end.wrapping_add(random.below(4096)),
        _ => layout
            .base
            .wrapping_add(random.below(span.min(u64::from(u32::MAX)) as u32)),
    }
}

#[cfg(test)]
mod tests {
    use super::*;

    #[test]
    fn most_layouts_are_accepted_and_every_refusal_comes() {
        let mut random = Random::of_case(0, 1, 1);
        let mut seen = [0; 7];
        for _ in 0..10_000 {
            let number = judge(&any(&mut random)).err().unwrap_or(0);
            seen[number as usize] += 1;
        }
        assert!(seen[0] > 6_000, "accepted: {}", seen[0]);
        assert!(seen[3] > 500, "malformed: {}", seen[3]);
        assert!(seen[6] > 500, "no window: {}", seen[6]);
    }
}
