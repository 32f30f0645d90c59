//! The command line itself: help, exit statuses, files that are not as they should
//! be, long input.

use crate::common::{complained, egretfold, peak_on, root, told};
use egretfold::headers::WAIT_FOR_IDLE;
use std::fs;
use std::io::Write;
use std::process::{Command, Stdio};

const SUBCOMMANDS: [&str; 13] = [
    "score",
    "decode",
    "encode",
    "replay",
    "address",
    "locate",
    "tile",
    "picture",
    "survey",
    "flow",
    "explain",
    "completions",
    "manual",
];

#[test]
fn help_is_given_by_every_subcommand() {
    let all = egretfold("--help", b"");
    assert_eq!(all.status.code(), Some(0));
    for name in SUBCOMMANDS {
        assert!(told(&all).contains(&format!("\n  {name} ")), "{name}");
        let output = egretfold(&format!("{name} --help"), b"");
        assert_eq!(output.status.code(), Some(0), "{name}");
        let usage = format!("Usage: egretfold {name} ");
        assert!(told(&output).contains(&usage), "{name}");
        assert_eq!(complained(&output), "", "{name}");
    }
}

#[test]
fn a_wrong_line_ends_with_2_and_no_answer() {
    for line in [
        "nothing",
        "decode --no-such-option",
        "decode --terse --json samples/whole.ctm",
        "address 1,2",
        "address --pitch 100 --height 3 --size 4 12",
        "address --pitch 0x --height 3 --size 4 1,2",
        "address --pitch 100 --height 3 --size 4 --format 2000064 1,2",
        "locate --pitch 100 --height 3 --size 4 xyz",
        "locate --pitch 100 --height 3 --size 4 123456789",
        "locate --words 3 800",
        "picture --memory samples/camera.mem --at 800 --stream samples/camera.ctm --window output-0",
        "picture --memory samples/camera.mem --at 800 --stream samples/camera.ctm --in samples/camera.ppm",
        "picture --memory samples/camera.mem --at 800 --pitch 64 --size 4 --out /dev/null",
        "picture --memory samples/camera.mem --at 8x --pitch 64 --size 4 --height 32 --out /dev/null",
        "picture --memory - --at 800 --pitch 64 --size 4 --height 32 --in - --to /dev/null",
        "picture --memory samples/camera.mem --at 800 --pitch 64 --size 4 --height 32 --out - --json",
        "picture --memory samples/camera.mem --at 800 --pitch 64 --size 4 --height 32 --rectangle 1,2,3 --out /dev/null",
        "picture --memory samples/camera.mem --at 800 --pitch 64 --size 4 --height 32 --as gif --out /dev/null",
        "survey --stream samples/camera.ctm --memory samples/camera.mem --value 300",
        "survey --stream samples/camera.ctm --memory samples/camera.mem --at 800",
        "survey --stream samples/camera.ctm --memory samples/camera.mem --at 800 --value -1",
        "survey --stream samples/camera.ctm --memory samples/camera.mem --at 800 --value 1 --domain 1,2,3",
        "survey --stream samples/camera.ctm --memory samples/camera.mem --at 800 --value 1 --pgm samples/camera.ctm",
        "survey --stream samples/camera.ctm --memory samples/camera.mem --at 800 --value 1 --svg samples/camera.ppm",
        "survey --stream - --memory - --at 800 --value 1",
        "survey --stream samples/camera.ctm --memory samples/nothing.mem --at 800 --value 1",
        "flow --hex samples/branch.hex 1",
        "flow --hex --integers - -",
        "flow --hex samples/loops.hex --integers samples/nothing.integers",
        "flow --hex samples/loops.hex --integers samples/three-days.log",
        "flow --hex samples/loops.hex --integers - --masks -",
        "flow --hex samples/kill.hex --masks samples/kill.masks --kill 1:F",
        "flow --hex samples/kill.hex --masks samples/kill.masks --kill 5:F:samples/kill.registers",
        "flow --hex samples/kill.hex --masks samples/kill.masks --kill 1:F:samples/kill.masks",
        "flow --hex samples/kill.hex --masks - --kill 1:F:-",
        "score samples/station-14.log",
        "score samples/station-14.log --first-day 101 --days 30",
        "score samples/station-14.log --first-day 101 --days 30 --owed 1 --json --csv",
        "score samples/station-14.log --first-day -1 --days 30 --owed 1",
        "score samples/station-14.log --first-day 4294967296 --days 1 --owed 1",
        "score samples/station-14.log --first-day 101 --days 30 --owed 1 --from 2026-04",
        "explain 0",
        "explain six",
    ] {
        let output = egretfold(line, b"");
        assert_eq!(output.status.code(), Some(2), "{line}");
        assert_eq!(told(&output), "", "{line}");
        assert_ne!(complained(&output), "", "{line}");
    }
}

#[test]
fn a_stream_that_ends_inside_a_word_is_told_so_after_its_words() {
    let whole = fs::read(root().join("samples/whole.ctm")).expect("the sample is there");
    for rest in 1..4 {
        let output = egretfold("decode", &whole[..whole.len() - 4 + rest]);
        assert_eq!(output.status.code(), Some(2));
        assert!(told(&output).contains("      13:  C0000800  start_program\n"));
        assert!(!told(&output).contains("      14:"));
        let at = 56 + rest;
        let due = format!(
            "egretfold: standard input: byte {at}: the input ends inside word 14, of which it has {rest} of 4 bytes\n"
        );
        assert_eq!(complained(&output), due);
    }
}

#[test]
fn a_file_is_read_like_standard_input() {
    let whole = fs::read(root().join("samples/whole.ctm")).expect("the sample is there");
    let by_file = egretfold("decode samples/whole.ctm", b"");
    for line in ["decode", "decode -"] {
        assert_eq!(egretfold(line, &whole).stdout, by_file.stdout);
    }
    let by_text = egretfold("decode --hex samples/whole.hex", b"");
    assert_eq!(by_text.stdout, by_file.stdout);
}

#[test]
fn the_sample_listing_is_its_stream() {
    let several = fs::read(root().join("samples/several.ctm")).expect("the sample is there");
    assert_eq!(egretfold("encode samples/several.txt", b"").stdout, several);
}

/// A reader that goes away early gets no complaint.
#[test]
fn a_closed_pipe_ends_quietly() {
    let mut child = Command::new(env!("CARGO_BIN_EXE_egretfold"))
        .args(["decode"])
        .stdin(Stdio::piped())
        .stdout(Stdio::piped())
        .stderr(Stdio::piped())
        .spawn()
        .expect("the command runs");
    drop(child.stdout.take());
    let mut stdin = child.stdin.take().expect("it has an input");
    // More words than any buffer between us holds the lines of.
    let _ = stdin.write_all(&waits(200_000));
    drop(stdin);
    let output = child.wait_with_output().expect("the command ends");
    assert_eq!(complained(&output), "");
    assert_eq!(output.status.code(), Some(0));
}

/// Memory stays the same for a long stream.
#[test]
fn a_long_stream_takes_no_more_memory() {
    let piece = waits(1 << 17);
    let pieces = 32;
    let (output, kilobytes) = peak_on("decode --summary", (0..pieces).map(|_| piece.clone()));
    assert!(kilobytes < 16 << 10, "{kilobytes} kB for 32 MB of words");
    let words = pieces * (1 << 18);
    let due = format!(
        "  {words} words, {} commands, 0 runs, 0 elements claimed\n",
        words / 2
    );
    assert!(told(&output).contains(&due), "{}", told(&output));
}

/// So many commands wait_for_idle, two words each.
fn waits(count: usize) -> Vec<u8> {
    let command = [WAIT_FOR_IDLE, 0].map(u32::to_le_bytes).concat();
    command.repeat(count)
}

/// The examples that the help texts print run as they stand.
#[test]
fn the_examples_of_the_help_texts_run() {
    let folder = std::env::temp_dir().join(format!("egretfold-{}", std::process::id()));
    fs::create_dir_all(&folder).expect("a folder to write in");
    let mut count = 0;
    for name in SUBCOMMANDS {
        let help = told(&egretfold(&format!("{name} --help"), b""));
        for line in help
            .lines()
            .filter(|line| line.contains("  egretfold ") || line.contains("| egretfold "))
        {
            let mut shell = Command::new("sh");
            let program = env!("CARGO_BIN_EXE_egretfold");
            let samples = root().join("samples");
            let line = line
                .replace("egretfold ", &format!("{program} "))
                .replace("samples/", &format!("{}/", samples.display()));
            shell
                .args(["-c", &line])
                .current_dir(&folder)
                .stdin(Stdio::null());
            let output = shell.output().expect("the line runs");
            let status = match () {
                _ if line.contains("/refused.") || line.contains("/intruder.") => 1,
                _ if line.contains(" score ") && line.contains("/station-14.") => 3,
                _ if line.contains(" score ") && line.contains("/station-14-april.") => 3,
                _ => 0,
            };
            assert_eq!(output.status.code(), Some(status), "{line}");
            count += 1;
        }
    }
    fs::remove_dir_all(&folder).expect("the folder goes");
    assert!(count >= 20, "{count}");
}
