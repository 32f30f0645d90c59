//! Stations for years: a fleet that goes on from last month's states, month after month, and states that are never half
//! there, whenever the command is killed.

use crate::common::{complained, egretfold, last_line, root, told, with_input, words, Folder};
use compare::random::Random;
use compare::records::{record, MIDNIGHT};
use second::log::Replay;
use second::score::{Lease, Month, Verdict};
use serde_json::{json, Value};
use sha2::{Digest, Sha256};
use std::env;
use std::fs;
use std::path::Path;
use std::process::{Command, Stdio};
use std::thread;
use std::time::{Duration, Instant};

/// Document 01's whole stream up to its start: one start claims 1,728.
#[rustfmt::skip]
const SETTINGS: [u32; 13] = [
    0xC001_0A00, 0x1000, 0x0400_0010,
    0xC003_0C00, 0, 0x800, 0x0201_0064, 18,
    0xC003_0700, 0, 0, 95, 17,
];

const START: [u32; 2] = [0xC000_0800, 0];
const CLAIM: u32 = 1_728;

/// Fifteen months from a March on, 457 days: more midnights than one replay takes.
const LENGTHS: [u32; 15] = [31, 30, 31, 30, 31, 31, 30, 31, 30, 31, 31, 28, 31, 30, 31];
const FIRST_DAY: u32 = 1_000;
const STATIONS: [&str; 3] = ["14", "Mole/2", "north"];

/// A station's log, a file a month. Midnights cut starts, and the files' ends cut records: each ends behind its last day,
/// or some bytes later, fewer than these.
fn months(station: u64, later: u32) -> Vec<Vec<u8>> {
    let mut random = Random::of_case(99, station, 0);
    let mut log = words(&SETTINGS);
    let (mut ends, mut rest, mut day) = (Vec::new(), &START[..0], FIRST_DAY);
    for length in LENGTHS {
        for _ in 0..length {
            log.extend(record(MIDNIGHT, day));
            log.extend(words(rest));
            let frames = random.below(4) as usize;
            log.extend(words(&START.repeat(frames)));
            let cut = random.below(3) / 2;
            log.extend(words(&START[..cut as usize]));
            rest = if cut > 0 { &START[1..] } else { &[] };
            day += 1;
        }
        ends.push(log.len());
    }
    let mut begin = 0;
    let file = |end: usize| {
        let end = (end + random.below(later) as usize).min(log.len());
        let file = log[begin..end].to_vec();
        begin = end;
        file
    };
    ends.into_iter().map(file).collect()
}

/// The lease file of a month, which names the folder with the states of the month before.
fn leases(folder: &Folder, month: usize, first_day: u32) -> String {
    let mut text = "station,log,first day,days,owed,state\n".to_string();
    for (place, station) in STATIONS.iter().enumerate() {
        let before = match month {
            0 => String::new(),
            month => format!("states-{}", month - 1),
        };
        let (days, owed) = (LENGTHS[month], CLAIM);
        text += &format!("{station},{place}-{month}.log,{first_day},{days},{owed},{before}\n");
    }
    folder.write(&format!("{month}.csv"), text.as_bytes())
}

/// What the fleet tells of a month, which the second program has of the whole log.
fn row(month: &Month) -> Value {
    let dark = month.days.iter().filter(|day| day.served == 0);
    let dark: Vec<u32> = dark.map(|day| day.number).collect();
    let full = |day: &&second::score::ScoredDay| day.served == u64::from(CLAIM);
    json!({
        "served": month.served,
        "owed": month.owed,
        "dark": dark,
        "full_days": month.days.iter().filter(full).count(),
        "verdict": match month.verdict {
            Verdict::Full => "full",
            Verdict::Short => "short",
            Verdict::NothingOwed => "nothing owed",
        },
    })
}

fn state_of(folder: &Folder, month: usize, station: &str) -> Vec<u8> {
    let name = format!("states-{month}/{}.state", station.replace('/', "-"));
    fs::read(folder.0.join(name)).expect("the state is saved")
}

/// What a state's file tells of its log, behind its head.
fn line_of(file: &[u8]) -> Value {
    let end = file.iter().skip(56).position(|byte| *byte == b'\n');
    serde_json::from_slice(&file[56..56 + end.expect("a line")]).expect("JSON")
}

/// Fifteen months, each by one command from the states that the one before saved: every month is that of the uncut logs,
/// by the second program's replay that takes all midnights and is never trimmed.
#[test]
fn a_fleet_goes_on_for_years() {
    let folder = Folder::new("fifteen");
    let logs: Vec<Vec<Vec<u8>>> = (0..3).map(|station| months(station, 8)).collect();
    let mut whole: Vec<Replay> = (0..3)
        .map(|_| Replay::without_end(1).expect("an edition"))
        .collect();
    let mut first_day = FIRST_DAY;
    let mut states: Vec<Vec<u8>> = Vec::new();
    let mut verdicts = Vec::new();
    for (month, length) in LENGTHS.into_iter().enumerate() {
        for (place, log) in logs.iter().enumerate() {
            folder.write(&format!("{place}-{month}.log"), &log[month]);
            assert_eq!(whole[place].feed(&log[month]).refusal, None);
        }
        let file = leases(&folder, month, first_day);
        let saved = folder
            .0
            .join(format!("states-{month}"))
            .display()
            .to_string();
        let output = egretfold(
            &format!("fleet {file} --sort lease --json --save-states {saved}"),
            b"",
        );
        assert_eq!(output.status.code(), Some(3), "{}", complained(&output));
        let text = told(&output);
        let lease = Lease {
            first_day,
            days: length,
            owed: CLAIM,
        };
        let mut sum = 0;
        for ((line, station), whole) in text.lines().zip(STATIONS).zip(&whole) {
            let line: Value = serde_json::from_str(line).expect("JSON");
            let due = lease.month(whole).expect("it isn't refused");
            for (key, value) in row(&due).as_object().expect("an object") {
                assert_eq!(line[key], *value, "{key} of {station} in month {month}");
            }
            // No day that a state brings is a warning; what the file's end cuts is told, and the day that it begins there.
            let next = format!(
                "the log has 1 day outside the lease: {}",
                first_day + length
            );
            let is_end = |check: &&Value| {
                let key = check["check"].as_str();
                let ends = ["not_closed", "open_command", "unfinished_record"];
                key.map_or(false, |key| ends.contains(&key)) || check["text"] == next
            };
            let checks = line["checks"].as_array().expect("a list").iter();
            let other = checks.clone().find(|check| !is_end(check));
            assert_eq!(other, None, "{station} in month {month}");
            verdicts.push(line["verdict"].clone());
            sum += due.served;
        }
        assert_eq!(last_line(&text)["fleet"]["served"], sum);
        let new: Vec<Vec<u8>> = STATIONS
            .iter()
            .map(|station| state_of(&folder, month, station))
            .collect();
        for ((new, old), station) in new.iter().zip(&states).zip(STATIONS) {
            let line = line_of(new);
            assert_eq!(line["began_from"], format!("{:x}", Sha256::digest(old)));
            assert_eq!(line["station"], station);
            // They don't grow: the state itself has one length, and of the last bytes at most 2,025 are kept.
            assert!(new.len() < 10_000, "{} bytes", new.len());
        }
        states = new;
        first_day += length;
    }
    assert!(whole.iter().all(|whole| whole.days().len() > 400));
    assert_eq!(verdicts.len(), 45);
}

/// The lines of `--commands` save the states that `fleet` saves, and what they print is joined to its report.
#[test]
fn a_fleet_goes_on_over_several_machines() {
    let folder = Folder::new("machines");
    let logs: Vec<Vec<Vec<u8>>> = (0..3).map(|station| months(station, 8)).collect();
    for (place, log) in logs.iter().enumerate() {
        for (month, log) in log.iter().enumerate().take(2) {
            folder.write(&format!("{place}-{month}.log"), log);
        }
    }
    let file = leases(&folder, 0, FIRST_DAY);
    let at = |name: &str| folder.0.join(name).display().to_string();
    let saved = at("states-0");
    assert_eq!(
        egretfold(&format!("fleet {file} --save-states {saved}"), b"")
            .status
            .code(),
        Some(3)
    );
    let file = leases(&folder, 1, FIRST_DAY + LENGTHS[0]);
    let alone = egretfold(
        &format!(
            "fleet {file} --issued 2026-05-02 --json --save-states {}",
            at("states-1")
        ),
        b"",
    );
    let lines = told(&egretfold(
        &format!(
            "fleet {file} --issued 2026-05-02 --commands --save-states {}",
            at("elsewhere")
        ),
        b"",
    ));
    assert_eq!(lines.lines().count(), 3);
    for line in lines.lines() {
        assert!(
            line.contains(&format!(" --resume={}/", at("states-0"))),
            "{line}"
        );
        assert!(
            line.contains(&format!(" --save={}/", at("elsewhere"))),
            "{line}"
        );
    }
    let program = Path::new(env!("CARGO_BIN_EXE_egretfold"));
    let path = format!(
        "{}:{}",
        program.parent().expect("a folder").display(),
        env::var("PATH").expect("a path")
    );
    let mut shell = Command::new("sh");
    shell.env("PATH", path);
    let scores = with_input(shell, lines.as_bytes());
    let scores = folder.write("scores", &scores.stdout);
    let joined = egretfold(
        &format!("fleet {file} --issued 2026-05-02 --json --from-scores {scores}"),
        b"",
    );
    assert_eq!(
        (told(&joined), joined.status.code()),
        (told(&alone), Some(3))
    );
    for station in STATIONS {
        let name = format!("elsewhere/{}.state", station.replace('/', "-"));
        assert_eq!(
            fs::read(folder.0.join(name)).expect("it is saved"),
            state_of(&folder, 1, station)
        );
    }
    // Scores that went on from nothing aren't those of rows that name a state.
    let without = fs::read_to_string(&file)
        .expect("the lease file")
        .replace("states-0", "");
    let without = folder.write("without.csv", without.as_bytes());
    let wrong = egretfold(&format!("fleet {without} --from-scores {scores}"), b"");
    assert_eq!(wrong.status.code(), Some(2));
    assert!(
        complained(&wrong).contains("station 14 is scored for another lease than that of line 2"),
        "{}",
        complained(&wrong)
    );
}

/// A state of another station, edition or day is told in its row, and the others are scored.
#[test]
fn a_state_of_another_station_edition_or_day_is_told_in_the_row() {
    let folder = Folder::new("rows");
    let log = months(0, 1);
    for (month, log) in log.iter().enumerate().take(3) {
        folder.write(&format!("{month}.log"), log);
    }
    let score = |month: usize, first_day: u32, more: &str| {
        let log = folder.0.join(format!("{month}.log")).display().to_string();
        let line = format!("score {log} --first-day {first_day} --days 28 --owed 1 --quiet {more}");
        assert_eq!(egretfold(&line, b"").status.code(), Some(3));
    };
    let at = |name: &str| folder.0.join(name).display().to_string();
    score(
        0,
        FIRST_DAY,
        &format!("--station a --save {}", at("a.state")),
    );
    score(
        0,
        FIRST_DAY,
        &format!("--edition 2 --save {}", at("two.state")),
    );
    let second = FIRST_DAY + LENGTHS[0];
    score(
        1,
        second,
        &format!("--resume {} --save {}", at("a.state"), at("later.state")),
    );
    let rows = [
        ("a", "1.log", second, "a.state"),
        ("b", "1.log", second, "a.state"),
        ("c", "1.log", second, "two.state"),
        // The lease begins before the day that the state has kept, and the log behind the one that is due.
        ("a2", "2.log", second, "later.state"),
        ("a3", "2.log", second + LENGTHS[1], "two.state"),
        ("d", "1.log", second, "none.state"),
    ];
    let mut text = "station,log,first day,days,owed,state\n".to_string();
    for (station, log, day, state) in rows {
        text += &format!("{station},{log},{day},28,1728,{state}\n");
    }
    let file = folder.write("leases.csv", text.as_bytes());
    let output = egretfold(
        &format!(
            "fleet {file} --csv --sort lease --save-states {}",
            at("states")
        ),
        b"",
    );
    assert_eq!(output.status.code(), Some(1));
    let told = told(&output);
    let lines: Vec<&str> = told.lines().skip(1).collect();
    let later = second + LENGTHS[1] - 1;
    let due = [
        "short".to_string(),
        "is the state of station a, and this is station b".to_string(),
        "was saved under edition 2 of the lease rule, and this is edition 1".to_string(),
        "is the state of station a, and this is station a2".to_string(),
        "was saved under edition 2".to_string(),
        "No such file".to_string(),
    ];
    for (line, due) in lines.iter().zip(&due) {
        assert!(line.contains(due), "{line}: {due}");
    }
    assert!(
        complained(&output).contains("no state is saved without a score"),
        "{}",
        complained(&output)
    );
    // Of those that have a score alone.
    let names = fs::read_dir(folder.0.join("states"))
        .expect("a folder")
        .count();
    assert_eq!(names, 1);
    // Days: of its own station, so that they alone are told.
    let text =
        format!("station,log,first day,days,owed,state\na,2.log,{second},28,1728,later.state\n");
    let file = folder.write("leases.csv", text.as_bytes());
    let output = egretfold(&format!("fleet {file} --csv"), b"");
    let due = format!(
        "lease line: begins on day {second}, and {} has no day before",
        at("later.state")
    );
    assert!(
        crate::common::told(&output).contains(&due),
        "{}",
        crate::common::told(&output)
    );
    let third = later + 1;
    let text = format!("station,log,first day,days,owed,state\na,2.log,{third},28,1728,a.state\n");
    let file = folder.write("leases.csv", text.as_bytes());
    let output = egretfold(&format!("fleet {file} --csv"), b"");
    assert!(
        crate::common::told(&output)
            .contains("this is another log, or days between them are missing"),
        "{}",
        crate::common::told(&output)
    );
}

/// States are never put over another file, another station's state, or the state that is gone on from.
#[test]
fn states_are_put_over_nothing_foreign() {
    let folder = Folder::new("foreign");
    let log = months(0, 1);
    folder.write("0.log", &log[0]);
    folder.write("1.log", &log[1]);
    let states = folder.0.join("states");
    fs::create_dir(&states).expect("a folder");
    let lease = |rows: &str| {
        let text = format!("station,log,first day,days,owed,state\n{rows}");
        folder.write("leases.csv", text.as_bytes())
    };
    let run = |file: &str| {
        let output = egretfold(
            &format!("fleet {file} --quiet --save-states {}", states.display()),
            b"",
        );
        (output.status.code(), complained(&output))
    };
    let file = lease(&format!("a,0.log,{FIRST_DAY},28,1,\n"));
    fs::write(states.join("a.state"), "a letter").expect("it is written");
    let (status, complaint) = run(&file);
    assert_eq!(status, Some(2));
    assert!(
        complaint.contains("stands there and is no state file; it is left as it is"),
        "{complaint}"
    );
    assert_eq!(
        fs::read(states.join("a.state")).expect("it stands"),
        b"a letter"
    );
    fs::remove_file(states.join("a.state")).expect("it goes");
    assert_eq!(run(&file).0, Some(3));
    // Again it is replaced by what it was.
    let old = fs::read(states.join("a.state")).expect("it is saved");
    assert_eq!(run(&file).0, Some(3));
    assert_eq!(fs::read(states.join("a.state")).expect("it stands"), old);
    // Another station's.
    fs::rename(states.join("a.state"), states.join("b.state")).expect("it is moved");
    let (status, complaint) = run(&lease(&format!("b,0.log,{FIRST_DAY},28,1,\n")));
    assert_eq!(status, Some(2));
    assert!(
        complaint.contains("is the state of station a; it is left as it is"),
        "{complaint}"
    );
    assert_eq!(fs::read(states.join("b.state")).expect("it stands"), old);
    // Two of one name, and the one that is read.
    let (_, complaint) = run(&lease(&format!(
        "x/y,0.log,{FIRST_DAY},28,1,\nx-y,0.log,{FIRST_DAY},28,1,\n"
    )));
    assert!(
        complaint.contains("would be that of line 2 too"),
        "{complaint}"
    );
    fs::rename(states.join("b.state"), states.join("a.state")).expect("it is moved back");
    let day = FIRST_DAY + LENGTHS[0];
    let (status, complaint) = run(&lease(&format!("a,1.log,{day},28,1,states/a.state\n")));
    assert_eq!(status, Some(2), "{complaint}");
    assert_eq!(fs::read(states.join("a.state")).expect("it stands"), old);
}

/// The three months in samples/: each one's states are what the next one's lease file names.
#[test]
fn the_three_months_of_the_samples_leave_their_states() {
    let folder = Folder::new("samples");
    for (month, stations) in [("april", &["21"][..]), ("may", &["21", "22"])] {
        let saved = folder.0.join(month);
        let line = format!(
            "fleet samples/months/{month}.csv --quiet --save-states {}",
            saved.display()
        );
        let output = egretfold(&line, b"");
        assert!(
            matches!(output.status.code(), Some(0 | 3)),
            "{}",
            complained(&output)
        );
        for station in stations {
            let name = format!("{station}.state");
            let stored = root()
                .join(format!("samples/months/states-{month}"))
                .join(&name);
            let (new, old) = (fs::read(saved.join(&name)), fs::read(stored));
            assert_eq!(
                new.expect("it is saved"),
                old.expect("the sample is there"),
                "{month} {station}"
            );
        }
    }
}

/// How often the command is killed in each test below: KILLS says otherwise.
fn kills() -> u32 {
    env::var("KILLS")
        .ok()
        .and_then(|text| text.parse().ok())
        .unwrap_or(200)
}

/// Names of what stands in a folder, but for these.
fn others(folder: &Path, names: &[&str]) -> Vec<std::path::PathBuf> {
    let entries = fs::read_dir(folder).expect("a folder").flatten();
    let is_other = |name: &std::ffi::OsString| !names.iter().any(|known| name == known);
    let others = entries.map(|entry| entry.file_name()).filter(is_other);
    others.map(|name| folder.join(name)).collect()
}

/// Kills the command at a random moment: from its begin to some way behind the time that it takes; one time of three some
/// moments after a file was begun beside the states.
fn kill(random: &mut Random, line: &str, folder: &Path, names: &[&str], whole: Duration) {
    let mut command = Command::new(env!("CARGO_BIN_EXE_egretfold"));
    command
        .args(line.split_whitespace())
        .current_dir(root())
        .stdin(Stdio::null())
        .stdout(Stdio::null())
        .stderr(Stdio::null());
    let mut child = command.spawn().expect("the command runs");
    let part = |of: Duration, random: &mut Random| of * random.below(1_000) / 1_000;
    if random.once_in(3) {
        let begun = Instant::now();
        while others(folder, names).is_empty() && begun.elapsed() < 3 * whole {}
        thread::sleep(part(Duration::from_micros(500), random));
    } else {
        thread::sleep(part(3 * whole / 2, random));
    }
    let _ = child.kill();
    child.wait().expect("it has ended");
}

/// Kills of a line that replaces these states: after each of them every state is the old one or the new one. How many of
/// the kills came while a state was being written is seen by the file that is left beside it.
fn killed(line: &str, folder: &Path, names: &[&str]) {
    let read = |name: &&str| fs::read(folder.join(name)).expect("a state stands there");
    let old: Vec<Vec<u8>> = names.iter().map(read).collect();
    let begun = Instant::now();
    let output = egretfold(line, b"");
    assert!(
        matches!(output.status.code(), Some(0 | 3)),
        "{}",
        complained(&output)
    );
    let whole = begun.elapsed();
    let new: Vec<Vec<u8>> = names.iter().map(read).collect();
    let (mut stayed, mut replaced, mut inside) = (0, 0, 0);
    for turn in 0..kills() {
        for (name, old) in names.iter().zip(&old) {
            fs::write(folder.join(name), old).expect("the old one stands again");
        }
        let mut random = Random::of_case(100, names.len() as u64, u64::from(turn));
        kill(&mut random, line, folder, names, whole);
        let parts = others(folder, names);
        inside += u32::from(!parts.is_empty());
        parts
            .iter()
            .for_each(|part| fs::remove_file(part).expect("it goes"));
        for (name, (old, new)) in names.iter().zip(old.iter().zip(&new)) {
            match read(name) {
                is if is == *old => stayed += 1,
                is if is == *new => replaced += 1,
                _ => panic!("half a state"),
            }
        }
    }
    println!("{} kills, {inside} of them inside the write: {stayed} states stayed, {replaced} were replaced", kills());
    assert!(
        stayed > 0 && replaced > 0,
        "{stayed} stayed, {replaced} replaced"
    );
    assert!(
        inside >= kills() / 20,
        "{inside} of {} kills inside the write",
        kills()
    );
}

#[test]
fn killed_while_it_saves_it_leaves_the_old_state_or_the_new_one() {
    let folder = Folder::new("killed");
    let states = folder.0.join("states");
    fs::create_dir(&states).expect("a folder");
    let state = states.join("state").display().to_string();
    let march = root().join("samples/station-14-march.state");
    fs::copy(march, &state).expect("the old one stands");
    let line = format!("replay samples/station-14-april.log --resume samples/station-14-march.state --quiet --save {state}");
    killed(&line, &states, &["state"]);
}

#[test]
fn a_fleet_killed_while_it_saves_leaves_old_states_or_new_ones() {
    let folder = Folder::new("killed-fleet");
    let states = folder.0.join("states");
    let (first, second) = (months(0, 1), months(1, 1));
    let (a, b) = (
        folder.write("a.log", &first[0]),
        folder.write("b.log", &second[0]),
    );
    let file = folder.write(
        "leases.csv",
        format!(
            "station,log,first day,days,owed\na,{a},{FIRST_DAY},28,1\nb,{b},{FIRST_DAY},28,1\n"
        )
        .as_bytes(),
    );
    let line = format!("fleet {file} --quiet --save-states {}", states.display());
    assert_eq!(egretfold(&line, b"").status.code(), Some(3));
    // The old ones are those of a log that ends a day earlier.
    for (name, log) in [(&a, &first[0]), (&b, &second[0])] {
        let end = log.len() - log.len() / 31;
        fs::write(name, &log[..end]).expect("a shorter log");
    }
    assert_eq!(egretfold(&line, b"").status.code(), Some(3));
    for (name, log) in [(&a, &first[0]), (&b, &second[0])] {
        fs::write(name, log).expect("the whole log");
    }
    killed(&line, &states, &["a.state", "b.state"]);
}
