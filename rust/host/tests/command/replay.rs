//! `replay`: logs cut into files, refusals with their place and cause, the end of a
//! log, long logs, and the sample logs themselves.

use crate::common::{
    complained, egretfold, last_line, midnights, peak_on, sample, told, words, Folder,
};
use compare::random::Random;
use compare::records::{record, MIDNIGHT, WORD};
use compare::words as streams;
use egretfold::headers::{SET_DOMAIN, START_PROGRAM, WAIT_FOR_IDLE};
use serde_json::Value;
use std::fs;
use std::process::Command;

/// Bytes that the command reads at once.
const PIECE: usize = 1 << 16;

/// What `replay --json` says of the whole of this log.
fn summary(log: &[u8]) -> Value {
    let output = egretfold("replay --json", log);
    last_line(&told(&output))["summary"].clone()
}

#[test]
fn the_samples_are_what_their_program_makes() {
    let folder = Folder::new("samples");
    let program = env!("CARGO_BIN_EXE_make-samples");
    let ended = Command::new(program).arg(&folder.0).status();
    assert!(ended.expect("the program runs").success());
    let mut count = 0;
    for within in ["", "station-15/"] {
        let folder = folder.0.join(within);
        for entry in fs::read_dir(folder).expect("the folder is there") {
            let file = entry.expect("an entry").path();
            if file.is_file() {
                let name = file.file_name().expect("a name").to_string_lossy();
                let name = format!("{within}{name}");
                assert_eq!(fs::read(&file).expect("a file"), sample(&name), "{name}");
                count += 1;
            }
        }
    }
    assert_eq!(count, 22);
}

#[test]
fn day_files_in_their_order_are_one_log() {
    let folder = Folder::new("days");
    let log = sample("three-days.log");
    let whole = told(&egretfold("replay samples/three-days.log", b""));
    assert_eq!(told(&egretfold("replay -", &log)), whole);
    for cut in 0..=log.len() {
        let (first, second) = log.split_at(cut);
        let a = folder.write("a", first);
        let b = folder.write("b", second);
        let output = egretfold(&format!("replay {a} {b}"), b"");
        assert_eq!(output.status.code(), Some(0), "cut at {cut}");
        assert_eq!(told(&output), whole, "cut at {cut}");
        // The same with one of them on standard input.
        let output = egretfold(&format!("replay - {b}"), first);
        assert_eq!(told(&output), whole, "cut at {cut}");
    }
}

#[test]
fn a_refusal_names_its_file_where_there_are_several() {
    let folder = Folder::new("places");
    let log = sample("refused.log");
    let whole = summary(&log);
    for cut in 0..=log.len() {
        let (first, second) = log.split_at(cut);
        let files = [folder.write("a", first), folder.write("b", second)];
        let output = egretfold(&format!("replay --json {} {}", files[0], files[1]), b"");
        assert_eq!(output.status.code(), Some(1), "cut at {cut}");
        let cut_up = &last_line(&told(&output))["summary"];
        for key in ["refused_word", "refusal"] {
            for same in ["byte", "record", "day", "refused", "cause"] {
                assert_eq!(cut_up[key][same], whole[key][same], "{key}, cut at {cut}");
            }
            let byte = whole[key]["byte"].as_u64().expect("a byte") as usize;
            let (file, at) = if byte < cut {
                (&files[0], byte)
            } else {
                (&files[1], byte - cut)
            };
            assert_eq!(cut_up[key]["input"], *file, "cut at {cut}");
            assert_eq!(cut_up[key]["input_byte"], at, "cut at {cut}");
        }
        let complaint = complained(&output);
        assert!(complaint.contains(", byte 144 of the log, record 28, day 103: refused 19, "));
    }
}

/// The cause that `decode` tells of the refused word of these words, if one is.
fn cause_by_decode(words: &[u32]) -> Option<(Value, Value)> {
    let bytes: Vec<u8> = words.iter().flat_map(|word| word.to_le_bytes()).collect();
    let output = egretfold("decode --summary --json", &bytes);
    let refusal = last_line(&told(&output))["summary"]["refusal"].clone();
    refusal
        .is_object()
        .then(|| (refusal["refused"].clone(), refusal["cause"].clone()))
}

/// A refused word's cause is the one that `decode` tells, also where midnights stand
/// inside its command and where it lies on the edge of a piece.
#[test]
fn a_refused_word_has_its_cause() {
    let mut refused = 0;
    for number in 0..60 {
        let mut random = Random::of_case(96, 1, number);
        let stream = streams::any(&mut random);
        let expected = match cause_by_decode(&stream) {
            Some(expected) => expected,
            None => continue,
        };
        let mut log = Vec::new();
        if random.coin() {
            // Commands that set nothing, up to somewhere before the first piece's end.
            let length = PIECE - random.below(10 * stream.len() as u32) as usize;
            log.extend(words_of_waits(length / 10));
        }
        let mut day = 7;
        for word in &stream {
            while random.once_in(3) {
                log.extend(record(MIDNIGHT, day));
                day += 1;
            }
            log.extend(record(WORD, *word));
        }
        let word = &summary(&log)["refused_word"];
        assert_eq!(
            (&word["refused"], &word["cause"]),
            (&expected.0, &expected.1)
        );
        refused += 1;
    }
    assert!(refused >= 15, "{refused}");
}

fn words_of_waits(count: usize) -> Vec<u8> {
    words(&[WAIT_FOR_IDLE, 0]).repeat(count)
}

#[test]
fn a_command_may_be_cut_by_every_midnight() {
    let spread = |header: u32| {
        [
            words(&[header, 9]),
            midnights(0..400),
            words(&[0, 8, 0]),
            words(&[START_PROGRAM]),
        ]
    };
    // The header lies in the first piece and its last words in the next.
    let log = [
        words_of_waits(PIECE / 10 - 150),
        spread(SET_DOMAIN).concat(),
    ]
    .concat();
    assert!(log.len() > PIECE);
    let output = egretfold("replay", &log);
    let due = "day 399: word refused 5, i0 9 is over i1 8\n  the days go on, 1 word after it without effect\n";
    assert!(told(&output).contains(due), "{}", told(&output));
    assert_eq!(output.status.code(), Some(1));
}

#[test]
fn a_stop_has_its_cause() {
    let cases = [
        (vec![0], "byte 0, record 0, before the first midnight: refused 18, kind byte 00 is neither 01 nor 02"),
        (
            [words(&[WAIT_FOR_IDLE, 0]), vec![255, 1]].concat(),
            "byte 10, record 2, before the first midnight: refused 18, kind byte FF is neither 01 nor 02",
        ),
        (
            [midnights(0..400), vec![3]].concat(),
            "byte 2000, record 400, day 399: refused 18, kind byte 03 is neither 01 nor 02",
        ),
        (
            [midnights(5..6), midnights(5..6)].concat(),
            "byte 9, record 1, day 5: refused 19, midnight of day 5 stands where day 6 is due",
        ),
        (
            midnights(1..402),
            "byte 2004, record 400, day 400: refused 19, midnight of day 401 is one more than the 400 that may come",
        ),
        (
            [record(MIDNIGHT, u32::MAX), record(MIDNIGHT, 0)].concat(),
            "byte 9, record 1, day 4294967295: refused 19, no day follows 4294967295, not 0",
        ),
    ];
    for (log, due) in cases {
        let output = egretfold("replay", &log);
        assert_eq!(output.status.code(), Some(1), "{due}");
        assert!(
            told(&output).contains(&format!("\n{due}\n")),
            "{}",
            told(&output)
        );
        // What to do is known of a midnight too many.
        let hint = if due.ends_with("may come") {
            "  give the files of some months with --save FILE, and the later ones with --resume FILE: \
                     a state keeps its last midnight alone, so that 399 more may come\n"
        } else {
            ""
        };
        let complaint = format!("egretfold: standard input: {due}\n{hint}");
        assert_eq!(complained(&output), complaint);
    }
}

#[test]
fn the_end_of_a_log_is_told_and_is_no_refusal() {
    let log = [midnights(1..2), words(&[SET_DOMAIN, 0]), midnights(2..3)].concat();
    for count in 1..5 {
        let output = egretfold("replay", &[&log[..], &record(WORD, 0)[..count]].concat());
        assert_eq!(output.status.code(), Some(0));
        assert_eq!(complained(&output), "");
        let due = format!(
            "ends inside set_domain: 1 of its 4 parameters taken\n\
             ends inside record 4: {count} of its 5 bytes, counted nowhere\n"
        );
        assert!(told(&output).ends_with(&due), "{}", told(&output));
    }
    let whole = told(&egretfold("replay", &log));
    assert!(whole.ends_with("ends inside set_domain: 1 of its 4 parameters taken\n"));
}

/// Memory stays the same for a long log.
#[test]
fn a_long_log_takes_no_more_memory() {
    let piece = words_of_waits(100_000);
    let days = (0..32).map(|day| [&record(MIDNIGHT, day)[..], &piece].concat());
    let (output, kilobytes) = peak_on("replay -", days);
    assert!(kilobytes < 16 << 10, "{kilobytes} kB for 32 MB of records");
    let due = "\n6400032 records: 6400000 words, 32 midnights\n";
    assert!(told(&output).contains(due), "{}", told(&output));
}
