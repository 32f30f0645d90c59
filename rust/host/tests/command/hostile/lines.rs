//! Hostile lines and inputs, and what must hold of every answer: its exit status, no panic, nothing that a terminal would
//! obey, JSON and rows that can be read, pictures that are well formed, the same status where nobody reads, and text that
//! says what JSON says.

use super::made::{self, Case, OWN};
use super::{shipped, Scene};
use crate::common::{complained, root, told, with_input};
use crate::schema::Schema;
use crate::score::well_formed;
use serde_json::Value;
use std::ffi::{OsStr, OsString};
use std::fs;
use std::io::Write;
use std::os::unix::ffi::{OsStrExt, OsStringExt};
use std::path::Path;
use std::process::{Command, Output, Stdio};

/// A case as it is run: its files are written, and its line names them.
struct Run<'a> {
    arguments: Vec<OsString>,
    input: &'a [u8],
}

impl Run<'_> {
    fn of<'a>(case: &'a Case, folder: &Path) -> Run<'a> {
        for (name, bytes) in &case.files {
            fs::write(folder.join(name), bytes).expect("the file is written");
        }
        let named = |argument: &OsString| match argument.as_bytes().strip_prefix(OWN.as_bytes()) {
            Some(name) => folder.join(OsStr::from_bytes(name)).into_os_string(),
            None => OsString::from_vec(argument.as_bytes().to_vec()),
        };
        Run {
            arguments: case.arguments.iter().map(named).collect(),
            input: &case.input,
        }
    }

    fn has(&self, flag: &str) -> bool {
        self.arguments.iter().any(|argument| argument == flag)
    }

    fn is(&self, name: &str) -> bool {
        self.arguments.first().map_or(false, |first| first == name)
    }

    fn by(&self, program: &OsStr, more: &[&str]) -> Output {
        let mut command = Command::new(program);
        command.args(&self.arguments).args(more);
        with_input(command, self.input)
    }

    fn output(&self, more: &[&str]) -> Output {
        self.by(&shipped(), more)
    }

    /// The status where nobody reads.
    fn status_unread(&self) -> Option<i32> {
        let mut child = Command::new(shipped())
            .args(&self.arguments)
            .current_dir(root())
            .stdin(Stdio::piped())
            .stdout(Stdio::piped())
            .stderr(Stdio::null())
            .spawn()
            .expect("the command runs");
        drop(child.stdout.take());
        let mut stdin = child.stdin.take().expect("it has an input");
        let _ = stdin.write_all(self.input);
        drop(stdin);
        child.wait().expect("the command ends").code()
    }
}

/// What must hold of every answer.
fn hold(run: &Run, output: &Output) {
    let status = output.status.code().expect("it ends by itself");
    assert!(
        status <= 2 || (status == 3 && (run.is("score") || run.is("fleet"))),
        "status {status}"
    );
    let errors = complained(output);
    assert!(
        !errors.contains("panicked") && !errors.contains("fault of the program"),
        "{errors}"
    );
    let plain = |text: &str| {
        text.chars()
            .all(|letter| letter == '\n' || !letter.is_control())
    };
    assert!(plain(&errors), "{errors:?}");
    // What is wrong or refused is told, and what is fine tells nothing but what to check.
    let only_checks = errors
        .lines()
        .all(|line| run.has("--csv") && !line.starts_with("egretfold: "));
    match status {
        0 | 3 => assert!(only_checks, "{errors}"),
        _ => assert!(!errors.is_empty()),
    }
    // Binary, which goes through as it is.
    if run.is("encode") && !run.has("--hex") || run.is("picture") && run.has("-") {
        return;
    }
    let text = told(output);
    assert!(plain(&text), "{text:?}");
    if run.has("--json") {
        let schema = Schema::new();
        for line in text
            .lines()
            .filter(|_| !run.is("manual") && !run.is("completions"))
        {
            let value: Value = serde_json::from_str(line).expect("JSON");
            let command = run.arguments[0].to_string_lossy();
            assert_eq!(schema.fault(&command, &value), None, "{line}");
        }
    }
    if (run.has("--csv") || run.has("--csv-lessees")) && run.is("fleet") {
        // Rows with another number of values than the first are an error there.
        let mut rows = csv::Reader::from_reader(text.as_bytes());
        assert!(rows.records().all(|row| row.is_ok()), "{text}");
    } else if run.has("--csv") {
        let mut rows = text.lines().map(|line| line.split(',').count());
        let head = rows.next().unwrap_or(0);
        assert!(rows.all(|values| values == head), "{text}");
    }
    if let Some(page) = text.strip_prefix("<!DOCTYPE html>\n") {
        assert!(well_formed(page) > 20);
    }
    if text.starts_with("<svg ") {
        assert!(well_formed(&text) > 5);
    }
}

/// The forms of one answer end alike and tell the same.
fn compare_forms(run: &Run, text: &Output) {
    let other = [
        "--json",
        "--csv",
        "--svg",
        "--html",
        "--terse",
        "--plain",
        "--work",
        "--commands",
        "--verify",
        "--csv-lessees",
    ];
    let known = [
        "score", "fleet", "history", "replay", "decode", "address", "locate", "flow", "tile",
        "survey", "picture", "verify",
    ];
    // Bytes on standard output leave no room for another form.
    let binary = run.is("picture") && run.has("-");
    if binary || other.iter().any(|flag| run.has(flag)) || !known.iter().any(|name| run.is(name)) {
        return;
    }
    let json = run.output(&["--json"]);
    assert_eq!(json.status.code(), text.status.code());
    // Clap's own words name the line's options.
    if !complained(text).starts_with("error: ") {
        assert_eq!(complained(&json), complained(text));
    }
    hold(
        &Run {
            arguments: [&run.arguments[..], &["--json".into()]].concat(),
            input: run.input,
        },
        &json,
    );
    let lines: Vec<Value> = told(&json)
        .lines()
        .map(|line| serde_json::from_str(line).expect("JSON"))
        .collect();
    let text = told(text).replace(',', "");
    match &run.arguments[0] {
        name if name == "replay" => {
            for line in &lines {
                if let (Some(day), Some(runs)) = (line["day"].as_u64(), line["runs"].as_u64()) {
                    let claims = &line["claims"];
                    let due = format!("{day:>10}  {runs:>10}  {claims:>17}");
                    let shown = text
                        .lines()
                        .any(|line| line.split_whitespace().eq(due.split_whitespace()));
                    assert!(shown, "{due} in {text}");
                }
            }
        }
        name if name == "score" => {
            if let Some(verdict) = lines
                .last()
                .and_then(|line| line["summary"]["verdict"].as_str())
            {
                assert!(text.contains(&format!("\n{verdict}: ")), "{text}");
                let served = &lines[lines.len() - 1]["summary"]["served"];
                let total = text
                    .lines()
                    .find(|line| line.trim_start().starts_with("total"));
                let total = total.expect("the totals").split_whitespace().nth(2);
                assert_eq!(total, Some(served.to_string().as_str()));
            }
        }
        name if name == "fleet" => {
            if let Some(fleet) = lines.last().map(|line| &line["fleet"]) {
                let (served, owed) = (&fleet["served"], &fleet["owed"]);
                let due = format!("served {served} of {owed} elements owed");
                assert!(text.contains(&due), "{due} in {text}");
                let stations = &fleet["stations"];
                let told = lines.iter().filter(|line| line.get("lease").is_some());
                assert_eq!(fleet["told"], told.count());
                assert!(
                    fleet["told"] == *stations || text.contains("; told here: "),
                    "{text}"
                );
                assert!(text.starts_with(&format!("fleet of {stations} station")));
            }
        }
        name if name == "history" => {
            if let Some(history) = lines.last().map(|line| &line["history"]) {
                let stations = &history["stations"];
                assert!(
                    text.starts_with(&format!("history of {stations} station")),
                    "{text}"
                );
                let odds = history["contradictions"].as_array().map_or(0, Vec::len);
                assert_eq!(
                    text.contains("\nscores that contradict each other:\n"),
                    odds > 0
                );
            }
        }
        name if name == "decode" => {
            let summary = lines.last().map(|line| &line["summary"]);
            if let Some(claims) = summary.and_then(|summary| summary["claims"].as_u64()) {
                let words = claims.to_string();
                assert!(text.contains(&format!(" {words} element")), "{text}");
            }
        }
        name if name == "survey" => {
            let survey = lines.last().map(|line| &line["survey"]);
            if let Some(passed) = survey.and_then(|survey| survey["passed"].as_u64()) {
                let pairs = survey.and_then(|survey| survey["pairs"].as_u64());
                let due = format!("  passed  {passed} of {}\n", pairs.unwrap_or(0));
                assert!(text.contains(&due), "{text}");
            }
        }
        name if name == "address" || name == "locate" => {
            for address in lines.iter().filter_map(|line| line["address"].as_str()) {
                assert!(text.contains(address), "{address} in {text}");
            }
        }
        _ => {}
    }
}

/// The other build says the same.
fn compare_builds(run: &Run, output: &Output, other: &OsStr) {
    let by_other = run.by(other, &[]);
    assert_eq!(by_other.status.code(), output.status.code());
    assert_eq!(complained(&by_other), complained(output));
    assert!(
        by_other.stdout == output.stdout,
        "the other build's answer differs"
    );
}

pub fn drive(scene: &mut Scene) {
    let case = made::case(&mut scene.random);
    scene.is_about(&case.arguments);
    let run = Run::of(&case, scene.folder);
    let output = run.output(&[]);
    hold(&run, &output);
    if scene.random.once_in(6) {
        assert_eq!(run.status_unread(), output.status.code());
    }
    compare_forms(&run, &output);
    if let Some(other) = &scene.other {
        compare_builds(&run, &output, other);
    }
}
