//! Times the proved product, through its C boundary, beside the fast Rust of this package's library, in one run, and prints
//! nanoseconds and ratios. It measures and doesn't judge: it ends with 0 whatever the ratios are.

#![forbid(unsafe_code)]

mod command;
mod inputs;
mod lines;
mod table;
mod targets;
mod way;

use std::process::exit;
use table::{Mode, Table};

const USAGE: &str = "\
usage: ./bench [--quick] [--only SUBSTRING] [--list]
  --quick            5 repeats a line instead of 21
  --only SUBSTRING   only the lines whose name has it
  --list             the lines' names alone, none of them timed
  --help             this text
./bench --places tells what whole pictures cost as memory and room are moved about
./bench --write [--quick] puts the table into docs/SPEED.md instead
./bench --count counts the instructions of the lines instead: see ./bench --count --help
./bench --command [MB] times the command on a log of so many MB (1000), and the library alone
./bench --proofs [NAME...] times the proofs of all crates, or of these";

struct Options {
    mode: Mode,
    only: String,
}

fn main() {
    let words: Vec<String> = std::env::args().skip(1).collect();
    let words: Vec<&str> = words.iter().map(String::as_str).collect();
    let done = match words[..] {
        // what tools/command-times asks for
        ["--make-log", bytes] => command::write_log(bytes),
        ["--replay", name] => command::replay(name),
        ["--places"] => {
            lines::places::print();
            Ok(())
        }
        _ => {
            table(&words);
            Ok(())
        }
    };
    if let Err(error) = done {
        eprintln!("bench: {error}");
        exit(1)
    }
}

fn table(words: &[&str]) {
    let options = options(words).unwrap_or_else(|| {
        eprintln!("{USAGE}");
        exit(2)
    });
    let mut table = Table::begin(options.mode, options.only);
    lines::feed::add(&mut table);
    lines::lessees::add(&mut table);
    lines::log::add(&mut table);
    lines::fleet::add(&mut table);
    lines::writer::add(&mut table);
    lines::address::add(&mut table);
    lines::element::add(&mut table);
    lines::survey::add(&mut table);
    lines::picture::add(&mut table);
    lines::flow::add(&mut table);
    lines::kill::add(&mut table);
    table.end();
}

/// The options, or nothing where one is unknown or lacks its word.
fn options(words: &[&str]) -> Option<Options> {
    let mut words = words.iter().copied();
    let mut options = Options {
        mode: Mode::Times(21),
        only: String::new(),
    };
    while let Some(word) = words.next() {
        match word {
            "--quick" => options.mode = Mode::Times(5),
            "--only" => options.only = words.next()?.to_string(),
            "--once" => options.mode = Mode::Once,
            "--list" => options.mode = Mode::Names,
            "--help" => {
                println!("{USAGE}");
                exit(0)
            }
            _ => return None,
        }
    }
    Some(options)
}
