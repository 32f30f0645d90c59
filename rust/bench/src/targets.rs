//! What was asked of the lines' ratios, printed below the table beside what they are now.

/// So much was asked of all lines that the test takes: a ratio before, and the most that it may be.
struct Target {
    what: &'static str,
    before: &'static str,
    most: f64,
    takes: fn(&str) -> bool,
}

const fn target(
    what: &'static str,
    before: &'static str,
    most: f64,
    takes: fn(&str) -> bool,
) -> Target {
    Target {
        what,
        before,
        most,
        takes,
    }
}

#[rustfmt::skip]
const TARGETS: [Target; 16] = [
    target("writer", "4.5", 1.0, |line| line.starts_with("writer,")),
    target("read, write by single calls", "1.4 to 2.0", 1.1, |line| line.starts_with("read,") || line.starts_with("write,")),
    target("superfine", "2.5", 1.2, |line| line.starts_with("superfine")),
    target("translate, locate, linear", "1.1 to 1.6", 1.0, |line| is_address(line) && line.contains("linear")),
    target("translate, locate, tiled", "1.1 to 1.6", 1.1, |line| is_address(line) && line.contains("tiled")),
    target("word by word", "1.5", 1.1, |line| line.starts_with("word by word")),
    target("pieces of 1 word", "2.6", 1.2, |line| line.starts_with("feed, mixed stream, pieces of 1,")),
    target("mixed feed, 2^16 words", "1.3", 0.8, |line| line.starts_with("feed, mixed stream, one piece")),
    target("mixed feed, 2^20 words", "1.5", 0.95, |line| line.starts_with("feed, mixed stream of 2^20")),
    target("replay, by pieces of several records", "1.4 to 1.5", 1.0, |line| line.starts_with("replay") && !line.contains("of 1,")),
    target("run of 64 steps against planes", "1.1", 0.9, |line| line.starts_with("run of 64") && line.contains("planes")),
    target("whole pictures, 64 KB", "", 1.0, |line| is_whole(line) && is_small(line) && !is_beside(line)),
    target("whole pictures, 4 MB to 64 MB", "", 1.0, |line| is_whole(line) && !is_small(line) && !is_beside(line)),
    // 0.7 of a plain copy's bytes a second
    target("whole pictures of sizes 4, 8, 16, 64 KB, beside memcpy", "", 1.43, |line| is_copy(line) && !is_narrow(line)),
    target("whole pictures of sizes 1, 2, 64 KB, beside memcpy", "", 3.0, |line| is_copy(line) && is_narrow(line)),
    target("ragged edges and narrow rows", "", 1.0, |line| line.contains(" x 998,") || line.contains("small 63 x 65,")),
];

fn is_address(line: &str) -> bool {
    line.starts_with("translate,") || line.starts_with("locate,")
}

fn is_whole(line: &str) -> bool {
    line.ends_with(", a KB")
}

fn is_small(line: &str) -> bool {
    line.contains("64 KB")
}

fn is_beside(line: &str) -> bool {
    line.contains(", beside ")
}

fn is_copy(line: &str) -> bool {
    is_small(line) && line.contains("beside memcpy")
}

fn is_narrow(line: &str) -> bool {
    line.contains("size 1,") || line.contains("size 2,")
}

/// Prints each target with the least and the greatest ratio of its lines, where there are any.
pub fn print(rows: &[(String, f64)]) {
    let mut head = true;
    for target in &TARGETS {
        let taken = rows.iter().filter(|(name, _)| (target.takes)(name));
        let ratios: Vec<f64> = taken.map(|(_, ratio)| *ratio).collect();
        if ratios.is_empty() {
            continue;
        }
        if head {
            println!();
            println!(
                "{:<58} {:>11} {:>11} {:>15}",
                "asked for", "before", "at most", "now"
            );
            head = false;
        }
        println!(
            "{:<58} {:>11} {:>11.2} {:>15}",
            target.what,
            target.before,
            target.most,
            range(&ratios)
        );
    }
}

fn range(ratios: &[f64]) -> String {
    let least = ratios.iter().copied().fold(f64::MAX, f64::min);
    let most = ratios.iter().copied().fold(0.0, f64::max);
    if least == most {
        format!("{most:.2}")
    } else {
        format!("{least:.2} to {most:.2}")
    }
}
