//! docs/SPEED.md holds a table that `./bench` printed: its lines are those that the benchmark has, its ratios are those of
//! its own numbers, and its last line counts them. The times themselves are of the machine that the page names.

use std::fs;
use std::path::Path;
use std::process::Command;

struct Row {
    name: String,
    product: f64,
    rust: f64,
    ratio: f64,
}

fn page() -> String {
    let file = Path::new(env!("CARGO_MANIFEST_DIR")).join("../../docs/SPEED.md");
    fs::read_to_string(file).expect("the page is there")
}

/// The table's rows: from its head to the blank line behind them.
fn rows(page: &str) -> Vec<Row> {
    let lines = page.lines().map(str::trim_start);
    let table = lines.skip_while(|line| !line.starts_with("line  ")).skip(1);
    table.take_while(|line| !line.is_empty()).map(row).collect()
}

fn row(line: &str) -> Row {
    let (name, numbers) = columns(line);
    let [product, rust, ratio] = numbers.map(|word| word.parse().expect("a number"));
    Row {
        name,
        product,
        rust,
        ratio,
    }
}

/// A row's name, and its last three words.
fn columns(line: &str) -> (String, [&str; 3]) {
    let (rest, ratio) = last_word(line);
    let (rest, rust) = last_word(rest);
    let (rest, product) = last_word(rest);
    (rest.to_string(), [product, rust, ratio])
}

fn last_word(line: &str) -> (&str, &str) {
    let (rest, word) = line.rsplit_once(' ').expect("another column");
    (rest.trim_end(), word)
}

#[test]
fn the_pages_lines_are_the_benchmarks() {
    let output = Command::new(env!("CARGO_BIN_EXE_bench"))
        .arg("--list")
        .output()
        .expect("the benchmark runs");
    let listed = String::from_utf8(output.stdout).expect("text");
    let names: Vec<String> = rows(&page()).into_iter().map(|row| row.name).collect();
    assert!(names.len() > 60, "the page has {} lines", names.len());
    assert_eq!(names, listed.lines().collect::<Vec<&str>>());
}

#[test]
fn the_pages_ratios_are_those_of_its_numbers() {
    for row in rows(&page()) {
        // Each of the three is rounded to two places.
        let (least, most) = (
            (row.product - 0.005) / (row.rust + 0.005),
            (row.product + 0.005) / (row.rust - 0.005),
        );
        let is = least - 0.005 <= row.ratio && row.ratio <= most + 0.005;
        assert!(is, "{}: {} / {}", row.name, row.product, row.rust);
    }
}

#[test]
fn the_pages_last_line_counts_its_rows() {
    let page = page();
    // Lines beside a plain copy or single calls aren't beside Rust.
    let beside_rust = |row: &Row| !row.name.contains(", beside ");
    let rows: Vec<Row> = rows(&page).into_iter().filter(beside_rust).collect();
    let low = rows.iter().filter(|row| row.ratio <= 1.0).count();
    let worst = rows
        .iter()
        .max_by(|a, b| a.ratio.total_cmp(&b.ratio))
        .expect("a row");
    let last = format!(
        "{low} of {} lines at or below 1.00; worst ratio {:.2}: {}",
        rows.len(),
        worst.ratio,
        worst.name
    );
    assert!(page.contains(&last), "{last}");
}
