//! Files that the command wrote itself and somebody has changed since: scores that are joined, and states that are gone on
//! from. What can be known to be changed is told, no number comes of it, and no text of it reaches a terminal as it is.

use super::{ended, Scene};
use crate::common::{complained, midnights, sample, told};
use crate::states::sealed;
use compare::random::Random;
use flate2::{write::GzEncoder, Compression};
use serde_json::{json, Map, Value};
use std::fs;
use std::io::Write;
use std::process::{Command, Output, Stdio};

/// What no terminal may be told.
const HOSTILE: &str = "x\u{1b}]0;y\u{7}\u{202E}\u{9b}2J\r\n\u{0}";

/// Runs a line in the folder. What it tells has nothing that a terminal obeys.
fn run(scene: &mut Scene, line: &str) -> Output {
    let mut command = Command::new(scene.program());
    command
        .args(line.split_whitespace())
        .current_dir(scene.folder);
    command.stdin(Stdio::null());
    let output = ended(command);
    let obeyed = |letter: char| letter == '\u{202E}' || letter.is_control() && letter != '\n';
    for text in [told(&output), complained(&output)] {
        assert!(!text.contains(obeyed), "{text:?}");
    }
    output
}

fn put(scene: &Scene, name: &str, bytes: &[u8]) {
    fs::write(scene.folder.join(name), bytes).expect("the file is written");
}

/// Some changes of bytes: other bytes, a cut, a part that is doubled or taken out.
fn damaged(random: &mut Random, bytes: &[u8]) -> Vec<u8> {
    let mut damaged = bytes.to_vec();
    let at = random.below(bytes.len() as u32) as usize;
    let end = (at + random.between(1, 64) as usize).min(bytes.len());
    match random.below(6) {
        0 => damaged.truncate(at),
        1 => drop(damaged.splice(at..at, bytes[at..end].iter().copied())),
        2 => drop(damaged.drain(at..end)),
        3 => damaged.extend_from_slice(&bytes[at..end]),
        _ => {
            for _ in 0..random.between(1, 4) {
                let at = random.below(bytes.len() as u32) as usize;
                damaged[at] ^= random.between(1, 255) as u8;
            }
        }
    }
    damaged
}

/// Another number than this one.
fn other(random: &mut Random, number: u64) -> Value {
    let numbers = [
        json!(number + 1),
        json!(number.wrapping_sub(1)),
        json!(number + 1_000),
        json!(number + (1 << 32)),
        json!(u64::MAX - number),
        json!(-1 - number as i64),
        json!(number as f64 + 0.5),
        json!(number.to_string()),
        Value::Null,
    ];
    numbers[random.below(numbers.len() as u32) as usize].clone()
}

/// Two stations; the lease of the first has two days more than its log.
const ROWS: &str = "station,log,first day,days,owed\n1,a.log,101,5,1728\n2,b.log,101,3,3000\n";
const SCORES: [&str; 2] = [
    "score --json --engine --first-day 101 --days 5 --owed 1728 --station 1 --issued 2026-05-02 -- a.log",
    "score --json --engine --first-day 101 --days 3 --owed 3000 --station 2 --issued 2026-05-02 -- b.log",
];

/// The numbers of a day and of a summary that a month is reckoned of.
const OF_A_DAY: [&str; 4] = ["day", "claimed", "served", "owed"];
const OF_A_MONTH: [&str; 2] = ["served", "owed"];

/// The scores' lines with one change, and whether it must be told.
struct Forged {
    bytes: Vec<u8>,
    what: String,
    is_told: bool,
}

fn lines_of(lines: &[Value]) -> Vec<u8> {
    let lines: String = lines.iter().map(|line| format!("{line}\n")).collect();
    lines.into_bytes()
}

/// The fields of a line, a day's or a month's.
fn fields(line: &mut Value) -> &mut Map<String, Value> {
    let line = line.as_object_mut().expect("an object");
    if line.contains_key("summary") {
        line["summary"].as_object_mut().expect("an object")
    } else {
        line
    }
}

/// A number that is reckoned, changed alone. A claim over what is owed counts as that, so another one over it says the same.
fn another_number(random: &mut Random, lines: &mut [Value]) -> (String, bool) {
    let place = random.below(lines.len() as u32) as usize;
    let fields = fields(&mut lines[place]);
    let key = if fields.contains_key("day") {
        random.one_of(&OF_A_DAY)
    } else {
        random.one_of(&OF_A_MONTH)
    };
    let owed = fields["owed"].as_u64().expect("a number");
    let was = fields[key].as_u64().expect("a number");
    let now = other(random, was);
    let over = |number: Option<u64>| number.map_or(false, |number| number >= owed);
    let is_told = key != "claimed" || !over(Some(was)) || !over(now.as_u64());
    let what = format!("{key} of line {}: {was} now {now}", place + 1);
    fields[key] = now;
    (what, is_told)
}

/// A field that is dropped, or has a text in its place that no terminal may be told.
fn another_field(random: &mut Random, lines: &mut [Value]) -> String {
    let place = random.below(lines.len() as u32) as usize;
    let fields = fields(&mut lines[place]);
    let keys: Vec<String> = fields.keys().cloned().collect();
    let key = &keys[random.below(keys.len() as u32) as usize];
    let now = match random.below(4) {
        0 => {
            fields.remove(key);
            "dropped"
        }
        1 => {
            fields[key] = json!(HOSTILE);
            "a hostile text"
        }
        2 => {
            let why = json!({ "name": "NOT SCORED", "why": HOSTILE });
            fields.insert("unscored".to_string(), why);
            "beside a cause"
        }
        _ => {
            let texts = ["check", "text", "explains"].map(|key| (key.to_string(), json!(HOSTILE)));
            let check: Map<String, Value> = texts.into_iter().collect();
            fields.insert("checks".to_string(), json!([check]));
            "beside a check"
        }
    };
    format!("{key} of line {} {now}", place + 1)
}

/// A line whose first field stands there twice, with another value first or last.
fn doubled_field(random: &mut Random, lines: &[Value]) -> (Vec<u8>, String) {
    let place = random.below(lines.len() as u32) as usize;
    let mut text = lines[place].to_string();
    let (key, value) = random.one_of(&[
        ("served", "7"),
        ("owed", "0"),
        ("day", "1"),
        ("lease", "{}"),
    ]);
    if random.coin() {
        text.insert_str(1, &format!("\"{key}\":{value},"));
    } else {
        text.insert_str(text.len() - 1, &format!(",\"{key}\":{value}"));
    }
    let mut bytes = lines_of(&lines[..place]);
    bytes.extend(format!("{text}\n").bytes());
    bytes.extend(lines_of(&lines[place + 1..]));
    (bytes, format!("{key} doubled in line {}", place + 1))
}

fn forged(random: &mut Random, whole: &[u8]) -> Forged {
    let text = std::str::from_utf8(whole).expect("text");
    let lines = text.lines().map(serde_json::from_str);
    let mut lines: Vec<Value> = lines.collect::<Result<_, _>>().expect("JSON");
    let place = random.below(lines.len() as u32) as usize;
    let (bytes, what, is_told) = match random.below(8) {
        0 => (damaged(random, whole), "damaged".to_string(), false),
        1 => {
            let line = lines.remove(place);
            let to = random.below(lines.len() as u32) as usize;
            lines.insert(to, line);
            // In its own place it is no change.
            (
                lines_of(&lines),
                format!("line {place} moved to {to}"),
                to != place,
            )
        }
        2 => {
            // Days without their summary, or a summary without one of its days.
            lines.remove(place);
            (lines_of(&lines), format!("line {place} taken out"), true)
        }
        3 => {
            let what = another_field(random, &mut lines);
            (lines_of(&lines), what, false)
        }
        4 => {
            let (bytes, what) = doubled_field(random, &lines);
            (bytes, what, false)
        }
        _ => {
            let (what, is_told) = another_number(random, &mut lines);
            (lines_of(&lines), what, is_told)
        }
    };
    Forged {
        bytes,
        what,
        is_told,
    }
}

fn packed(random: &mut Random, bytes: &[u8]) -> Vec<u8> {
    let mut packer = GzEncoder::new(Vec::new(), Compression::fast());
    packer.write_all(bytes).expect("room");
    let packed = packer.finish().expect("room");
    if random.once_in(4) {
        damaged(random, &packed)
    } else {
        packed
    }
}

/// What a report of the fleet tells of its months.
fn totals(output: &Output) -> Vec<Value> {
    let text = told(output);
    let last = text.lines().last().expect("a line");
    let last: Value = serde_json::from_str(last).expect("JSON");
    [
        "stations",
        "scored",
        "served",
        "owed",
        "percent",
        "silent_days",
    ]
    .map(|key| last["fleet"][key].clone())
    .to_vec()
}

pub fn scores(scene: &mut Scene) {
    put(scene, "leases.csv", ROWS.as_bytes());
    put(scene, "a.log", &sample("three-days.log"));
    put(scene, "b.log", &sample("three-days.log"));
    let whole = SCORES.map(|line| run(scene, line).stdout).concat();
    let forged = forged(&mut scene.random, &whole);
    scene.is_about(&(&forged.what, String::from_utf8_lossy(&forged.bytes)));
    let bytes = if scene.random.once_in(4) {
        packed(&mut scene.random, &forged.bytes)
    } else {
        forged.bytes
    };
    put(scene, "scores", &bytes);
    let line = "fleet leases.csv --from-scores scores --issued 2026-05-02";
    let form = scene.random.one_of(&["", "--csv", "--html -"]);
    let shown = run(scene, &format!("{line} {form}"));
    let joined = run(scene, &format!("{line} --json"));
    assert_eq!(shown.status, joined.status, "{form}");
    let status = joined.status.code();
    assert!(!forged.is_told || status == Some(2), "{joined:?}");
    match status {
        Some(2) => {
            assert_eq!(
                (told(&shown), told(&joined)),
                (String::new(), String::new())
            );
            let errors = complained(&joined);
            assert!(
                errors.contains("scores: ") || errors.contains("station "),
                "{errors}"
            );
        }
        Some(0 | 3) => {
            put(scene, "scores", &whole);
            let due = run(scene, &format!("{line} --json"));
            assert_eq!(totals(&joined), totals(&due));
        }
        // A station that isn't scored is no part of the sum, and is told.
        _ => assert!(!complained(&joined).is_empty()),
    }
}

/// Where the line of a state's file begins, and where its length stands.
const HEAD: usize = 56;
const LENGTH: usize = 32;
/// The digest of all before it.
const DIGEST: usize = 32;

/// What a state's line tells that the state's own bytes, or the log's last ones, tell too.
const HELD: [&str; 8] = [
    "edition",
    "last_day",
    "kept_day",
    "midnights",
    "consumed",
    "bytes",
    "sha256",
    "files",
];

/// Another value of the same kind.
fn another_value(random: &mut Random, value: &Value) -> Value {
    match value {
        Value::Number(number) => other(random, number.as_u64().expect("none is below 0")),
        Value::String(text) => {
            let mut text = text.clone();
            let at = random.below(text.len() as u32) as usize;
            let new = if &text[at..=at] == "0" { "1" } else { "0" };
            text.replace_range(at..=at, new);
            json!(text)
        }
        _ => json!([]),
    }
}

/// A file with another line, whole by its lengths and its digest. Tells whether that line can't be the state's.
fn another_line(random: &mut Random, file: &[u8]) -> (Vec<u8>, String, bool) {
    let length = u64::from_le_bytes(file[LENGTH..LENGTH + 8].try_into().expect("eight bytes"));
    let end = HEAD + length as usize;
    let mut value: Value = serde_json::from_slice(&file[HEAD..end]).expect("JSON");
    let keys: Vec<String> = value
        .as_object()
        .expect("an object")
        .keys()
        .cloned()
        .collect();
    let key = &keys[random.below(keys.len() as u32) as usize];
    let is_held = HELD.contains(&&**key);
    value[key] = if is_held {
        another_value(random, &value[key])
    } else {
        random_text(random)
    };
    let what = format!("{key} now {}", value[key]);
    let line = format!("{value}\n").into_bytes();
    let mut bytes = file[..24].to_vec();
    let total = (file.len() - length as usize + line.len()) as u64;
    bytes.extend(total.to_le_bytes());
    bytes.extend((line.len() as u64).to_le_bytes());
    bytes.extend(&file[40..HEAD]);
    bytes.extend(line);
    bytes.extend(&file[end..]);
    (sealed(bytes), what, is_held)
}

fn random_text(random: &mut Random) -> Value {
    let long = "x".repeat(random.between(1, 5_000) as usize);
    random
        .one_of(&[
            Some(HOSTILE),
            Some("14"),
            Some("2026-02-30"),
            Some(&*long),
            None,
        ])
        .into()
}

pub fn states(scene: &mut Scene) {
    put(scene, "a.log", &sample("three-days.log"));
    put(scene, "b.log", &midnights(104..107));
    let save = scene.random.one_of(&["--save", "--save-all"]);
    let saved = run(scene, &format!("replay a.log --quiet {save} whole.state"));
    assert_eq!(saved.status.code(), Some(0), "{saved:?}");
    let whole = fs::read(scene.folder.join("whole.state")).expect("it is saved");
    let random = &mut scene.random;
    let (bytes, what, is_told) = match random.below(3) {
        0 => {
            let bytes = damaged(random, &whole);
            let is_told = bytes != whole;
            (bytes, "damaged".to_string(), is_told)
        }
        // Its digest is right again, so that the lengths and the product have to tell.
        1 => {
            let mut bytes = damaged(random, &whole);
            bytes.resize(bytes.len().max(DIGEST), 0);
            (sealed(bytes), "damaged and sealed".to_string(), false)
        }
        _ => another_line(random, &whole),
    };
    scene.is_about(&(save, &what, &bytes));
    put(scene, "forged.state", &bytes);
    let line = scene.random.one_of(&[
        "replay b.log --resume forged.state",
        "replay b.log --resume forged.state --json --save new.state",
        "score b.log --resume forged.state --first-day 104 --days 3 --owed 5",
        "score b.log --resume forged.state --first-day 104 --days 3 --owed 5 --station 14 --json --save new.state",
    ]);
    let output = run(scene, line);
    let now = fs::read(scene.folder.join("forged.state")).expect("it is there");
    assert!(now == bytes, "the state that was read is changed");
    if output.status.code() == Some(2) {
        let errors = complained(&output);
        assert!(
            errors.starts_with("egretfold: forged.state: ") || !is_told,
            "{errors}"
        );
        assert!(
            !scene.folder.join("new.state").exists(),
            "it failed, and a state is saved"
        );
    }
    assert!(
        !is_told || output.status.code() == Some(2),
        "{what}: {output:?}"
    );
}
