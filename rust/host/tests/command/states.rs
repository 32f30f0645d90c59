//! States kept in files: a log cut anywhere and gone on with, what each wrong file is told, and
//! a file that is never half written.

use crate::common::{
    complained, egretfold, last_line, midnights, sample, told, with_input, words, Folder,
};
use compare::random::Random;
use compare::records;
use egretfold::{Edition, Replay};
use serde_json::{json, Value};
use sha2::{Digest, Sha256};
use std::fs;
use std::process::{Command, Output};

/// Where a state file tells of its version, its kind and the length of its line, and where that begins.
const VERSION: usize = 16;
const KIND: usize = 20;
const LINE: usize = 32;
const HEAD: usize = 56;

const DIGEST: usize = 32;

const APRIL: &str = "--first-day 101 --days 30 --owed 14000000 --from 2026-04-01";

fn march() -> Vec<u8> {
    sample("station-14-march.state")
}

/// Where the state in a file begins, behind what is told of its log.
fn state_of(file: &[u8]) -> usize {
    let length = u64::from_le_bytes(file[LINE..LINE + 8].try_into().expect("eight bytes"));
    HEAD + length as usize
}

/// What a file tells of its log.
fn line_of(file: &[u8]) -> Value {
    serde_json::from_slice(&file[HEAD..state_of(file)]).expect("JSON")
}

/// A file with the digest that its bytes have.
pub fn sealed(mut bytes: Vec<u8>) -> Vec<u8> {
    bytes.truncate(bytes.len() - DIGEST);
    let digest = Sha256::digest(&bytes);
    bytes.extend(digest);
    bytes
}

/// How a state is saved: with all days, or with the last one alone.
const SAVES: [&str; 2] = ["--save-all", "--save"];

/// What `replay --json` says of these bytes behind a state, which is saved again in the same file.
fn gone_on(save: &str, state: &str, resume: bool, bytes: &[u8]) -> Output {
    let resume = if resume {
        format!("--resume {state}")
    } else {
        String::new()
    };
    egretfold(&format!("replay --json - {save} {state} {resume}"), bytes)
}

/// The lines of a whole log from the day on that the other's first line behind "before" is of. What ended
/// before is another number where days are forgotten.
fn from_the_same_day(whole: &Output, resumed: &Output) -> [Vec<Value>; 2] {
    let [mut whole, mut resumed] = [whole, resumed].map(without_inputs);
    let kept = resumed[1]["day"].clone();
    whole.remove(0);
    resumed.remove(0);
    whole.retain(|line| line["day"].is_null() || line["day"].as_u64() >= kept.as_u64());
    for lines in [&mut whole, &mut resumed] {
        let summary = lines.last_mut().expect("a summary");
        summary["summary"]["first_day"].take();
    }
    [whole, resumed]
}

/// The lines of `replay --json` without what tells of the inputs.
fn without_inputs(output: &Output) -> Vec<Value> {
    let text = told(output);
    let lines = text
        .lines()
        .map(|line| serde_json::from_str(line).expect("JSON"));
    let mut lines: Vec<Value> = lines.collect();
    let summary = &mut lines.last_mut().expect("a summary")["summary"];
    for key in [
        "inputs",
        "resumed_at",
        "resumed_from",
        "forgotten_midnights",
    ] {
        summary.as_object_mut().expect("an object").remove(key);
    }
    for key in ["refused_word", "refusal"] {
        if let Some(refused) = summary[key].as_object_mut() {
            refused.remove("input");
            refused.remove("input_byte");
        }
    }
    lines
}

#[test]
fn a_log_cut_anywhere_goes_on_from_its_state() {
    let folder = Folder::new("cut");
    let state = folder.0.join("state").display().to_string();
    for name in ["three-days.log", "refused.log"] {
        let log = sample(name);
        let whole = egretfold("replay --json -", &log);
        // Up to the byte that stops it, behind which there is no state.
        let taken = last_line(&told(&whole))["summary"]["taken"].as_u64();
        for cut in 0..=taken.expect("bytes taken") as usize {
            for save in SAVES {
                let _ = fs::remove_file(&state);
                gone_on(save, &state, false, &log[..cut]);
                let rest = gone_on(save, &state, true, &log[cut..]);
                let [all, same] = match save {
                    "--save" => from_the_same_day(&whole, &rest),
                    _ => [&whole, &rest].map(without_inputs),
                };
                assert_eq!(same, all, "{name} cut at {cut}");
                assert_eq!(rest.status.code(), whole.status.code());
                let at = &last_line(&told(&rest))["summary"]["resumed_at"];
                assert_eq!(*at, cut);
            }
        }
    }
}

/// Logs of all kinds, saved and gone on with at several bytes.
#[test]
fn any_log_goes_on_from_its_states() {
    let folder = Folder::new("chain");
    let state = folder.0.join("state").display().to_string();
    let (mut pieces, mut refused) = (0, 0);
    for number in 0..60 {
        let mut random = Random::of_case(97, 1, number);
        let log = records::any(&mut random);
        let save = SAVES[number as usize % 2];
        let whole = egretfold("replay --json -", &log);
        let _ = fs::remove_file(&state);
        let mut left = log.as_slice();
        let mut resume = false;
        loop {
            let most = (left.len() as u32).min(2_000);
            let count = if random.once_in(4) {
                left.len()
            } else {
                random.between(0, most) as usize
            };
            let (piece, rest) = left.split_at(count);
            let output = gone_on(save, &state, resume, piece);
            left = rest;
            pieces += 1;
            let stopped = complained(&output).contains("nothing is saved");
            if left.is_empty() || stopped {
                let same = |key: &str| {
                    let of = |output: &Output| {
                        without_inputs(output)
                            .pop()
                            .map(|mut line| line["summary"][key].take())
                    };
                    assert_eq!(of(&output), of(&whole), "{key} of log {number}");
                };
                if stopped {
                    // What comes behind the stop isn't read by it.
                    for key in ["taken", "refused_word", "runs", "claims", "last_day"] {
                        same(key);
                    }
                    refused += 1;
                } else {
                    let [all, same] = match save {
                        "--save" => from_the_same_day(&whole, &output),
                        _ => [&whole, &output].map(without_inputs),
                    };
                    assert_eq!(same, all, "log {number}");
                }
                break;
            }
            resume = true;
        }
    }
    assert!(
        pieces > 150 && refused > 5,
        "{pieces} pieces, {refused} stops"
    );
}

#[test]
fn the_sample_is_what_march_leaves() {
    let folder = Folder::new("march");
    let state = folder.0.join("state").display().to_string();
    for line in [
        format!("replay samples/station-14-march.log --quiet --save {state}"),
        format!("score samples/station-14-march.log --first-day 70 --days 31 --owed 1 --csv --save {state}"),
    ] {
        let _ = fs::remove_file(&state);
        assert_eq!(egretfold(&line, b"").status.code(), Some(0), "{line}");
        assert_eq!(fs::read(&state).expect("the state is saved"), march());
    }
}

/// April's card from March's state has all that April's own log tells: the days, the total and the verdict, and of the
/// files the digests of what a lessee has.
#[test]
fn april_is_scored_from_marchs_state_as_from_both_months() {
    let score = |inputs: &str| {
        let line = format!("score {inputs} {APRIL} --issued 2026-05-02 --json");
        let output = egretfold(&line, b"");
        assert_eq!(output.status.code(), Some(3), "{line}");
        let text = told(&output);
        let days: Vec<String> = text.lines().map(String::from).collect();
        (days, last_line(&text)["summary"].clone())
    };
    let (mut days, both) = score("samples/station-14-march.log samples/station-14-april.log");
    let (mut same, resumed) =
        score("samples/station-14-april.log --resume samples/station-14-march.state");
    days.pop();
    same.pop();
    assert_eq!(same, days);
    for key in [
        "served",
        "owed",
        "percent",
        "verdict",
        "full_days",
        "part_days",
        "dark_days",
        "lease",
    ] {
        assert_eq!(resumed[key], both[key], "{key}");
    }
    let sha256 = |name: &str| format!("{:x}", Sha256::digest(sample(name)));
    assert_eq!(resumed["sha256"], sha256("station-14-april.log"));
    assert_eq!(
        resumed["began_from"]["sha256"],
        sha256("station-14-march.state")
    );
    assert_eq!(
        resumed["began_from"]["state"],
        "samples/station-14-march.state"
    );
    // The days of March are no warning; where all files are given they are told.
    assert_eq!(resumed["checks"].as_array().map(Vec::len), Some(0));
    assert_eq!(both["checks"][0]["check"], "outside_the_lease");
    // Both digests are on the card that people read, and on the one that is drawn.
    for form in ["", "--svg -", "--html -"] {
        let line = format!("score samples/station-14-april.log --resume samples/station-14-march.state {APRIL} {form}");
        let card = told(&egretfold(&line, b""));
        for (named, name) in [
            ("SHA-256 of the log's bytes: ", "station-14-april.log"),
            ("station-14-march.state:", "station-14-march.state"),
        ] {
            // The second one goes on in the next line where it is drawn.
            let due = [named, &sha256(name)];
            assert!(due.iter().all(|due| card.contains(due)), "{form}: {due:?}");
        }
    }
    // The days are those of the month whose set-up stands in its own log.
    let days = |line: &str| told(&egretfold(&format!("{line} {APRIL} --csv"), b""));
    assert_eq!(
        days("score samples/station-14-april.log --resume samples/station-14-march.state"),
        days("score samples/station-14.log"),
    );
}

/// What stands in a file: whose log it is, up to which day, and each file by the digest that `sha256sum` gives.
#[test]
fn a_state_tells_of_each_file_and_of_the_state_before() {
    let folder = Folder::new("told");
    let [first, second] = ["first", "second"].map(|name| folder.0.join(name).display().to_string());
    let whole = sample("station-14-april.log");
    let (a, b) = whole.split_at(7_001);
    let files = [folder.write("a.log", a), folder.write("b.log", b)];
    let march = format!("score samples/station-14-march.log --first-day 70 --days 31 --owed 1 --from 2026-03-01 --station 14 --csv --save {first}");
    assert_eq!(egretfold(&march, b"").status.code(), Some(0));
    let april = format!(
        "replay {} {} --resume {first} --quiet --save {second}",
        files[0], files[1]
    );
    assert_eq!(egretfold(&april, b"").status.code(), Some(0));
    let [first, second] = [first, second].map(|name| fs::read(name).expect("it is saved"));
    let sha256 = |bytes: &[u8]| format!("{:x}", Sha256::digest(bytes));
    let (one, two) = (line_of(&first), line_of(&second));
    assert_eq!(
        (&one["station"], &one["last_day"], &one["last_date"]),
        (&json!("14"), &json!(100), &json!("2026-03-31"))
    );
    assert_eq!(
        (&one["began_from"], &one["midnights"], &one["kept_day"]),
        (&Value::Null, &json!(31), &json!(100))
    );
    // What the first one says of the station and of dates goes on.
    assert_eq!(
        (&two["station"], &two["last_day"], &two["last_date"]),
        (&json!("14"), &json!(131), &json!("2026-05-01"))
    );
    assert_eq!(
        (&two["midnights"], &two["kept_day"], &two["edition"]),
        (&json!(62), &json!(131), &json!(1))
    );
    assert_eq!(two["began_from"], sha256(&first));
    assert_eq!(
        (&two["sha256"], &two["bytes"]),
        (&json!(sha256(&whole)), &json!(whole.len()))
    );
    let due = [a, b].map(|file| json!({"bytes": file.len(), "sha256": sha256(file)}));
    assert_eq!(two["files"], json!(due));
    assert_eq!(two["consumed"], json!(15_125 + whole.len()));
    assert_eq!(two["egretfold"], env!("CARGO_PKG_VERSION"));
}

/// A state of the version before is read, and what goes on from it is the same.
#[test]
fn a_state_of_the_first_version_goes_on() {
    let line =
        |state: &str| format!("score samples/station-14-april.log --resume {state} {APRIL} --csv");
    let first = egretfold(&line("rust/host/tests/states/version-1.state"), b"");
    assert_eq!(first.status.code(), Some(3), "{}", complained(&first));
    assert_eq!(
        told(&first),
        told(&egretfold(&line("samples/station-14-march.state"), b""))
    );
    // It has all its days, and a lease may begin there.
    let march = "--first-day 70 --days 31 --owed 1 --csv";
    let both = "score samples/station-14-april.log --resume rust/host/tests/states/version-1.state";
    let output = egretfold(&format!("{both} {march}"), b"");
    assert_eq!(output.status.code(), Some(0), "{}", complained(&output));
}

/// Days before the kept one are forgotten, and no lease is scored that asks for them.
#[test]
fn a_lease_that_begins_before_the_kept_day_is_refused() {
    let score = |first_day: u32, form: &str| {
        egretfold(&format!("score samples/station-14-april.log --resume samples/station-14-march.state --first-day {first_day} --days 8 --owed 1 {form}"), b"")
    };
    for first_day in [0, 70, 99] {
        let output = score(first_day, "");
        assert_eq!(
            (output.status.code(), told(&output)),
            (Some(2), String::new())
        );
        let due = format!("egretfold: lease line: begins on day {first_day}, and samples/station-14-march.state has no day before 100: it has forgotten them\n  give a state that was saved before day {first_day}, or the log's files from there on\n");
        assert_eq!(complained(&output), due);
        let summary = last_line(&told(&score(first_day, "--json")))["summary"].clone();
        assert_eq!(summary["unscored"]["name"], "NOT SCORED");
        assert!(summary["served"].is_null());
    }
    // The kept day itself is there.
    for first_day in [100, 101] {
        assert_eq!(score(first_day, "--csv").status.code(), Some(0));
    }
    // Nothing is saved of a lease that isn't scored.
    let folder = Folder::new("forgotten");
    let state = folder.0.join("state").display().to_string();
    assert_eq!(score(70, &format!("--save {state}")).status.code(), Some(2));
    assert!(fs::metadata(&state).is_err());
}

/// A state that was saved for a station isn't taken for another's, and dates that differ are told.
#[test]
fn a_state_of_another_station_or_date_is_told() {
    let folder = Folder::new("others");
    let state = folder.0.join("state").display().to_string();
    let march = format!("score samples/station-14-march.log --first-day 70 --days 31 --owed 1 --from 2026-03-01 --station 14 --csv --save {state}");
    assert_eq!(egretfold(&march, b"").status.code(), Some(0));
    let april = format!(
        "score samples/station-14-april.log --resume {state} --first-day 101 --days 30 --owed 1"
    );
    let output = egretfold(&format!("{april} --station 15"), b"");
    assert_eq!(output.status.code(), Some(2));
    let due = format!("egretfold: {state}: is the state of station 14, and this is station 15\n  give the state that was saved for station 15\n");
    assert_eq!(complained(&output), due);
    for station in ["", "--station 14"] {
        assert_eq!(
            egretfold(&format!("{april} {station}"), b"").status.code(),
            Some(3)
        );
    }
    let checks = |from: &str| {
        let output = egretfold(&format!("{april} --from {from} --json"), b"");
        last_line(&told(&output))["summary"]["checks"].clone()
    };
    assert_eq!(checks("2026-04-01"), json!([]));
    let due = format!("by {state} day 101 is 2026-04-01, and by the lease line it is 2026-05-01");
    assert_eq!(checks("2026-05-01")[0]["text"], json!(due));
}

/// Of more midnights than a replay takes, what to do is told; and done, it goes on for years.
#[test]
fn what_to_do_at_the_401st_midnight_is_told() {
    let folder = Folder::new("years");
    let state = folder.0.join("state").display().to_string();
    let days = midnights(1..402);
    let output = egretfold("replay -", &days);
    assert_eq!(output.status.code(), Some(1));
    let due = "day 400: refused 19, midnight of day 401 is one more than the 400 that may come\n  give the files of some months with --save FILE, and the later ones with --resume FILE: a state keeps its last midnight alone, so that 399 more may come\n";
    assert!(
        complained(&output).ends_with(due),
        "{}",
        complained(&output)
    );
    let mut resume = String::new();
    for first in (1..1_200).step_by(300) {
        let line = format!("replay - {resume} --quiet --save {state}");
        let output = egretfold(&line, &midnights(first..first + 300));
        assert_eq!(complained(&output), "");
        resume = format!("--resume {state}");
    }
    let output = egretfold(
        &format!("replay - {resume} --json"),
        &midnights(1_201..1_601),
    );
    assert!(
        complained(&output).contains("midnight of day 1600 is one more than the 400"),
        "{}",
        complained(&output)
    );
    let output = egretfold(
        &format!("replay - {resume} --json"),
        &midnights(1_201..1_600),
    );
    let summary = last_line(&told(&output))["summary"].clone();
    assert_eq!(
        (&summary["midnights"], &summary["records"]),
        (&json!(1_599), &json!(1_599))
    );
    assert_eq!(
        (&summary["last_day"], &summary["forgotten_midnights"]),
        (&json!(1_599), &json!(1_199))
    );
    // A wrong day is told as that.
    let output = egretfold(&format!("replay - {resume}"), &midnights(1_300..1_301));
    let due = "ends in day 1200: this is another log, or days between them are missing, or these came before";
    assert!(complained(&output).contains(due), "{}", complained(&output));
}

/// Where the refused word's day is forgotten, its place in the log is still told.
#[test]
fn a_refused_words_place_is_told_months_later() {
    let folder = Folder::new("word");
    let state = folder.0.join("state").display().to_string();
    let log = [midnights(1..11), words(&[7]), midnights(11..21)].concat();
    let whole = egretfold(
        "replay --json -",
        &[log.clone(), midnights(21..41)].concat(),
    );
    gone_on("--save", &state, false, &log);
    gone_on("--save", &state, true, &midnights(21..31));
    let rest = gone_on("--save", &state, true, &midnights(31..41));
    let word = |output: &Output| last_line(&told(output))["summary"]["refused_word"].clone();
    assert_eq!(word(&whole)["day"], 10);
    assert_eq!(word(&rest), word(&whole));
    assert_eq!(rest.status.code(), Some(1));
    assert!(
        complained(&rest).contains("state: byte 50, record 10, day 10: refused 2"),
        "{}",
        complained(&rest)
    );
}

/// A session that has taken as many words as it may is told that a power-up begins a new one.
#[test]
fn what_to_do_at_the_last_word_of_a_session_is_told() {
    let folder = Folder::new("words");
    let mut file = march();
    let text = String::from_utf8(file[HEAD..state_of(&file)].to_vec()).expect("text");
    let taken = 999_999_999_u64;
    // So many words and 31 midnights came, of which the state has the last two words alone.
    let words_of_march: u64 = 15_125 / 5 - 31;
    let at = state_of(&file) + 40 + 6_400;
    let own = &file[at..at + 4 * 18]
        .chunks_exact(4)
        .map(|cell| u32::from_le_bytes(cell.try_into().expect("four")))
        .collect::<Vec<u32>>();
    let place = own
        .iter()
        .position(|cell| u64::from(*cell) == words_of_march)
        .expect("the words taken");
    let cell = at + 4 * place;
    file[cell..cell + 4].copy_from_slice(&(taken as u32).to_le_bytes());
    let bytes = 5 * (taken + 31);
    let line = text.replace("15125", &bytes.to_string());
    let (from, to) = (text.len(), line.len());
    file.splice(HEAD..HEAD + from, line.into_bytes());
    let length = file.len() as u64;
    file[24..32].copy_from_slice(&length.to_le_bytes());
    file[LINE..LINE + 8].copy_from_slice(&(to as u64).to_le_bytes());
    let state = folder.write("state", &sealed(file));
    let more = [midnights(101..102), words(&[0xC000_0900, 0])].concat();
    let output = egretfold(&format!("replay - --resume {state}"), &more);
    assert_eq!(output.status.code(), Some(1), "{}", complained(&output));
    let due = "refused 17, the session has taken 1,000,000,000 words\n  the card's power-up begins a new session: give the files from there on by themselves, without --resume\n";
    assert!(
        complained(&output).ends_with(due),
        "{}",
        complained(&output)
    );
    let card = egretfold(
        &format!("score - --resume {state} --first-day 101 --days 1 --owed 1 --json"),
        &more,
    );
    let checks = last_line(&told(&card))["summary"]["checks"].to_string();
    assert!(
        checks.contains("the card's power-up begins a new session"),
        "{checks}"
    );
}

#[test]
fn a_month_without_its_set_up_is_told_that_a_state_would_do() {
    let output = egretfold(
        &format!("score samples/station-14-april.log {APRIL} --json"),
        b"",
    );
    let checks = last_line(&told(&output))["summary"]["checks"].clone();
    assert_eq!(checks[0]["check"], "set_up_missing");
    let text = checks[0]["text"].as_str().expect("a text");
    assert!(
        text.ends_with("the state saved at the end of the month before would do (score --resume)")
    );
}

/// Saving changes nothing of the answer.
#[test]
fn an_answer_is_the_same_where_its_state_is_saved() {
    let folder = Folder::new("answers");
    let state = folder.0.join("state").display().to_string();
    for line in [
        "replay samples/three-days.log",
        "replay samples/three-days.log --json",
        "replay samples/three-days.log --csv",
        "replay samples/three-days.log --plain --quiet",
        "score samples/station-14.log --first-day 101 --days 30 --owed 1 --issued 2026-05-02 --json",
        "score samples/station-14.log --first-day 101 --days 30 --owed 14000000",
        "score samples/station-14-april.log --first-day 101 --days 30 --owed 1 --csv",
    ] {
        let _ = fs::remove_file(&state);
        let plain = egretfold(line, b"");
        let saved = egretfold(&format!("{line} --save {state}"), b"");
        assert_eq!(told(&saved), told(&plain), "{line}");
        assert_eq!(complained(&saved), complained(&plain), "{line}");
        assert_eq!(saved.status.code(), plain.status.code(), "{line}");
        assert!(fs::metadata(&state).is_ok(), "{line}");
    }
}

/// What a file is told, and what to do.
fn told_of(name: &str, bytes: &[u8]) -> String {
    let folder = Folder::new(&format!("wrong-{name}"));
    let state = folder.write("march.state", bytes);
    let output = egretfold(
        &format!("replay --resume {state} samples/station-14-april.log"),
        b"",
    );
    assert_eq!(output.status.code(), Some(2), "{name}");
    assert_eq!(told(&output), "", "{name}");
    let complaint = complained(&output).replace(&state, "march.state");
    let score = egretfold(
        &format!("score --resume {state} samples/station-14-april.log {APRIL}"),
        b"",
    );
    assert_eq!(complained(&score).replace(&state, "march.state"), complaint);
    assert_eq!(score.status.code(), Some(2), "{name}");
    complaint
}

#[test]
fn each_wrong_file_is_told_what_is_wrong_and_what_to_do() {
    let with = |place: usize, bytes: &[u8]| {
        let mut file = march();
        file[place..place + bytes.len()].copy_from_slice(bytes);
        file
    };
    let anew = "save it again from the log's files, or take another copy of it";
    let not_ours = "it isn't as --save wrote it; save it again from the log's files";
    let mut stopped = Replay::new(Edition::First);
    stopped.feed(&[0]);
    let zeros = vec![0; Replay::BYTES];
    let longer = [&march()[..], b"more"].concat();
    let damaged = with(5_000, &[255]);
    let cases: [(&str, Vec<u8>, String); 14] = [
        ("empty", Vec::new(), "is no state file\n  --resume takes what --save wrote; a log is given without it".into()),
        ("log", sample("station-14-march.log"), "is no state file\n  --resume takes what --save wrote; a log is given without it".into()),
        (
            "version",
            with(VERSION, &[3]),
            "is a state file of version 3, and this egretfold reads versions 1 and 2\n  a later egretfold wrote it: go on with that one, or save it again from the log's files with this one".into(),
        ),
        ("begin", march()[..20].to_vec(), format!("is cut: it has only 20 bytes\n  {anew}")),
        ("cut", march()[..9_000].to_vec(), format!("is cut: it has 9000 of its 9458 bytes\n  {anew}")),
        ("longer", longer, format!("is damaged: more stands there than its 9458 bytes\n  {anew}")),
        ("damaged", damaged, format!("is damaged: its bytes don't have the SHA-256 that it ends with\n  {anew}")),
        (
            "session",
            sealed(with(KIND, &[1])),
            "holds a session's state, not a replay's\n  --resume takes what replay or score saved".into(),
        ),
        (
            "group",
            sealed(with(KIND, &[4])),
            "holds a group's state, not a replay's\n  --resume takes what replay or score saved".into(),
        ),
        (
            "kind",
            sealed(with(KIND, &[9])),
            "holds a state of kind 9, which isn't known here, not a replay's\n  --resume takes what replay or score saved".into(),
        ),
        (
            "zeros",
            sealed(with(state_of(&march()), &zeros)),
            format!("is whole, but its numbers are no replay's: they were judged and refused\n  {not_ours}"),
        ),
        // The stop's flag, behind the replay's own numbers and marks, is 2.
        (
            "flag",
            sealed(with(state_of(&march()) + 4 * 10 + 8 * 800, &[2])),
            format!("is whole, but its numbers are no replay's: they were judged and refused\n  {not_ours}"),
        ),
        (
            "another",
            sealed(with(state_of(&march()), &Replay::new(Edition::First).to_bytes())),
            format!("is whole, but its state isn't that of the bytes it tells of\n  {not_ours}"),
        ),
        (
            "stopped",
            sealed(with(state_of(&march()), &stopped.to_bytes())),
            "holds a replay that refusal 18 has stopped, after which no byte is taken\n  give the log's files again, mended".into(),
        ),
    ];
    for (name, bytes, due) in cases {
        assert_eq!(
            told_of(name, &bytes),
            format!("egretfold: march.state: {due}\n"),
            "{name}"
        );
    }
    // More than any state file has, which isn't read to its end.
    let long = [&march()[..], &vec![0; 1 << 20]].concat();
    assert!(told_of("long", &long).contains("more stands there than its 9458 bytes"));
    let dos = [b"egretfold state\r\n", &march()[VERSION..]].concat();
    assert!(told_of("dos", &dos).contains("its line ends were changed on its way"));
    let consumed = String::from_utf8_lossy(&march()[..state_of(&march())]).find("15125");
    let consumed = with(consumed.expect("the bytes consumed"), b"15126");
    assert!(told_of("consumed", &sealed(consumed)).contains("isn't that of the bytes"));
}

/// All that came before is known again however it is given.
#[test]
fn the_whole_log_again_is_refused() {
    let folder = Folder::new("again");
    let whole = [
        sample("station-14-march.log"),
        sample("station-14-april.log"),
    ]
    .concat();
    let due = "begins with the 15125 bytes that were taken before samples/station-14-march.state was saved";
    let refused = |line: &str, input: &[u8]| {
        for command in ["replay", &format!("score {APRIL}")] {
            let line = format!("{command} {line} --resume samples/station-14-march.state");
            let output = egretfold(&line, input);
            assert_eq!(output.status.code(), Some(2), "{line}");
            assert_eq!(told(&output), "", "{line}");
            assert!(complained(&output).contains(due), "{}", complained(&output));
        }
    };
    refused("-", &whole);
    refused("-", &whole[..15_125]);
    refused(
        "samples/station-14-march.log samples/station-14-april.log",
        b"",
    );
    // In files that are cut elsewhere, and packed.
    let (a, b) = whole.split_at(7_001);
    let (a, b) = (folder.write("a", a), folder.write("b", b));
    refused(&format!("{a} {b}"), b"");
    let packed = Command::new("gzip").args(["-k", &a]).status();
    assert!(packed.expect("gzip runs").success());
    refused(&format!("{a}.gz {b}"), b"");
    // A part of it isn't known by its digest, but by its days.
    let output = egretfold(
        "replay - --resume samples/station-14-march.state",
        &whole[..15_124],
    );
    assert_eq!(output.status.code(), Some(1));
    let hint = "samples/station-14-march.state ends in day 100: this is another log";
    assert!(
        complained(&output).contains(hint),
        "{}",
        complained(&output)
    );
}

/// A record that is open when the state is saved stays open, and bytes that don't go on
/// there are told so.
#[test]
fn an_unfinished_record_stays_open() {
    let folder = Folder::new("open");
    let state = folder.0.join("state").display().to_string();
    let log = sample("three-days.log");
    let saved = egretfold(&format!("replay - --save {state}"), &log[..98]);
    assert!(
        told(&saved).ends_with("ends inside record 19: 3 of its 5 bytes, counted nowhere\n"),
        "{}",
        told(&saved)
    );
    let output = egretfold(&format!("replay - --resume {state}"), &log[98..]);
    let table = told(&output).replace(&format!("resumed from {state} at byte 98\n"), "");
    assert_eq!(
        table,
        told(&egretfold("replay samples/three-days.log", b""))
    );
    let output = egretfold(&format!("replay - --resume {state}"), &log[100..]);
    assert_eq!(output.status.code(), Some(1));
    let due = "ends inside a record, with 3 of its 5 bytes: what is given must go on there";
    assert!(complained(&output).contains(due), "{}", complained(&output));
}

/// A state that gzip packed is read as it is, as logs are; one that isn't a state file isn't read to its end.
#[test]
fn a_packed_state_is_unpacked() {
    let folder = Folder::new("packed");
    let state = folder.write("march.state", &march());
    let zeros = folder.write("zeros", &vec![0; 1 << 20]);
    for file in [&state, &zeros] {
        let packed = Command::new("gzip").arg(file).status();
        assert!(packed.expect("gzip runs").success());
    }
    let line =
        |state: &str| format!("score samples/station-14-april.log --resume {state} {APRIL} --csv");
    let output = egretfold(&line(&format!("{state}.gz")), b"");
    assert_eq!(
        told(&output),
        told(&egretfold(&line("samples/station-14-march.state"), b""))
    );
    let output = egretfold(&line(&format!("{zeros}.gz")), b"");
    assert!(complained(&output).contains("is no state file"));
}

/// A log that is stopped has no state: an earlier one stays as it is.
#[test]
fn a_stopped_log_is_not_saved() {
    let folder = Folder::new("stopped");
    let state = folder.write("state", &march());
    for command in ["replay", &format!("score {APRIL}")] {
        let output = egretfold(
            &format!("{command} samples/damaged.log --save {state}"),
            b"",
        );
        assert_eq!(output.status.code(), Some(1));
        let due = format!(
            "day 117 is due\n  {state}: nothing is saved, since no byte is taken after that\n"
        );
        assert!(
            complained(&output).ends_with(&due),
            "{}",
            complained(&output)
        );
        assert_eq!(fs::read(&state).expect("it stands"), march());
    }
}

/// Days' files one after another, each from the state that the one before left, in one file.
#[test]
fn a_state_may_be_replaced_by_the_one_that_follows() {
    let folder = Folder::new("rolling");
    let state = folder.0.join("state").display().to_string();
    let log = sample("station-14.log");
    let mut resume = String::new();
    for piece in log.chunks(1_000) {
        let output = egretfold(&format!("replay - {resume} --save {state} --quiet"), piece);
        assert_eq!(complained(&output), "");
        resume = format!("--resume {state}");
    }
    let [all, same] = from_the_same_day(
        &egretfold("replay samples/station-14.log --json", b""),
        &egretfold(&format!("replay - {resume} --json"), b""),
    );
    assert_eq!(same, all);
    // The last day, and the summary.
    assert_eq!(same.len(), 2);
}

#[test]
fn flipped_bits_are_refused_by_the_command_too() {
    let folder = Folder::new("flips");
    let mut random = Random::of_case(98, 1, 0);
    for _ in 0..60 {
        let mut bytes = march();
        let place = random.below(8 * bytes.len() as u32) as usize;
        bytes[place / 8] ^= 1 << (place % 8);
        let state = folder.write("state", &bytes);
        let output = egretfold(
            &format!("replay --resume {state} samples/station-14-april.log"),
            b"",
        );
        assert_eq!(output.status.code(), Some(2), "bit {place}");
        assert_eq!(told(&output), "", "bit {place}");
    }
}

/// Where the new state can't be written, the old one stays.
#[test]
fn a_state_that_cannot_be_written_leaves_the_old_one() {
    let folder = Folder::new("closed");
    let state = folder.write("state", &march());
    // A folder of this name can't be replaced by a file.
    let taken = folder.0.join("taken");
    fs::create_dir(&taken).expect("a folder");
    let output = egretfold(
        &format!("replay samples/three-days.log --save {}", taken.display()),
        b"",
    );
    assert_eq!(output.status.code(), Some(2));
    assert!(complained(&output).ends_with("taken: is no file\n"));
    let mut shell = Command::new("sh");
    let program = env!("CARGO_BIN_EXE_egretfold");
    // No file may get any longer.
    let line = format!(
        "ulimit -f 0; trap '' XFSZ; {program} replay samples/three-days.log --quiet --save {state}"
    );
    shell.args(["-c", &line]);
    let output = with_input(shell, b"");
    assert_eq!(output.status.code(), Some(2), "{}", complained(&output));
    assert_eq!(fs::read(&state).expect("it stands"), march());
}
