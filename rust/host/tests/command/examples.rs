//! The examples that the documents print: a line `    $ …` with `./egretfold` in it, or
//! with the program that starts anew at each midnight, and, indented alike below it,
//! what it prints. Each is run as it stands.

use crate::common::{complained, egretfold, root, shell, told};
use std::fs;

/// The line that runs station 14's log anew at each midnight.
const ANEW: &str =
    "cargo run -q --release --manifest-path rust/Cargo.toml -p host --bin anew-each-midnight";

struct Example {
    line: String,
    prints: String,
}

/// The examples of a document.
fn examples(text: &str) -> Vec<Example> {
    let mut found: Vec<Example> = Vec::new();
    let mut inside = false;
    for line in text.lines() {
        let indented = line.strip_prefix("    ");
        match indented.and_then(|line| line.strip_prefix("$ ")) {
            Some(command) => {
                inside = command.contains("./egretfold") || command == ANEW;
                if inside {
                    found.push(Example {
                        line: command.to_string(),
                        prints: String::new(),
                    });
                }
            }
            None if inside => match (indented, found.last_mut()) {
                (Some(line), Some(example)) => example.prints += &format!("{line}\n"),
                // Blank lines inside an output are not indented in a document.
                (None, Some(example)) if line.is_empty() => example.prints.push('\n'),
                _ => inside = false,
            },
            None => {}
        }
    }
    found
}

fn run(example: &Example) -> String {
    let line = example.line.replace("./egretfold", "egretfold");
    let output = shell(&line.replace(ANEW, "anew-each-midnight"));
    told(&output) + &complained(&output)
}

fn all_hold(document: &str) -> usize {
    let text = fs::read_to_string(root().join(document)).expect("the document is there");
    let examples = examples(&text);
    for example in &examples {
        let (is, printed) = (run(example), &example.prints);
        assert_eq!(is.trim_end(), printed.trim_end(), "{}", example.line);
    }
    examples.len()
}

#[test]
fn the_documents_print_what_the_examples_print() {
    // The samples, the tour, a card, a tile and an address for each of the five sizes, and a lease file.
    for (document, least) in [
        ("samples/README.md", 8),
        ("README.md", 1),
        ("docs/TOUR.md", 7),
        ("docs/ADDRESSES.md", 10),
        ("docs/FLEET.md", 2),
        ("docs/CARD.md", 1),
    ] {
        let count = all_hold(document);
        assert!(count >= least, "{document} has {count} examples");
    }
}

/// README.md is the first page and leads to the others: what grows, grows there.
#[test]
fn the_first_page_is_short() {
    let text = fs::read_to_string(root().join("README.md")).expect("the document is there");
    let lines = text.lines().count();
    assert!(lines <= 120, "README.md has {lines} lines");
}

/// An editor shows them whole. A row of docs/AUDIT.md is one line, which tools/audit reads.
#[test]
fn the_documents_lines_are_short() {
    let docs = fs::read_dir(root().join("docs")).expect("the documents are there");
    let docs = docs.map(|entry| entry.expect("an entry").path());
    let first = ["README.md", "CONTRIBUTING.md", "CHANGELOG.md"].map(|name| root().join(name));
    let documents = first.into_iter().chain(docs);
    for file in documents.filter(|file| file.extension().map_or(false, |kind| kind == "md")) {
        let text = fs::read_to_string(&file).expect("text");
        for (number, line) in (1..).zip(text.lines()) {
            let row = file.ends_with("AUDIT.md") && line.starts_with('|');
            let length = line.chars().count();
            let place = format!("{}:{number}", file.display());
            assert!(row || length <= 170, "{place} has {length} characters");
        }
    }
}

#[test]
fn the_first_page_lists_every_command() {
    let text = fs::read_to_string(root().join("README.md")).expect("the document is there");
    let help = told(&egretfold("--help", b""));
    let commands = help.lines().skip_while(|line| *line != "Commands:").skip(1);
    let names: Vec<&str> = commands
        .map_while(|line| line.split_whitespace().next())
        .filter(|name| *name != "help")
        .collect();
    assert!(names.contains(&"score"), "{help}");
    for name in names {
        let begins = [format!("`{name}`"), format!("`{name} ")];
        let is_there = begins.iter().any(|begin| text.contains(begin));
        assert!(is_there, "README.md doesn't list {name}");
    }
}
