//! What a user meets beside the answers: readers that go away, names and listings that
//! would move a terminal, options that mean nothing, hints, where the answer goes, and
//! what is packed.

use crate::common::{complained, egretfold, last_line, root, sample, told, with_input, Folder};
use std::fs;
use std::io::Write;
use std::os::unix::fs::symlink;
use std::process::{Command, Output, Stdio};

const APRIL: &str = "--first-day 101 --days 30 --owed 14000000 --from 2026-04-01";

fn program() -> Command {
    let mut command = Command::new(env!("CARGO_BIN_EXE_egretfold"));
    command.current_dir(root());
    command
}

/// The exit status where nobody reads what is answered.
fn status_unread(arguments: &str, input: &[u8]) -> Option<i32> {
    let mut child = program()
        .args(arguments.split_whitespace())
        .stdin(Stdio::piped())
        .stdout(Stdio::piped())
        .stderr(Stdio::null())
        .spawn()
        .expect("the command runs");
    drop(child.stdout.take());
    let mut stdin = child.stdin.take().expect("it has an input");
    let _ = stdin.write_all(input);
    drop(stdin);
    child.wait().expect("the command ends").code()
}

#[test]
fn the_status_does_not_depend_on_who_reads() {
    let zeros = vec![0; 2_000_000];
    let pairs = "95,0\n96,0\n".repeat(50_000).into_bytes();
    let mut log = vec![1, 0, 0, 0, 0];
    for day in 0..400_u32 {
        log.push(2);
        log.extend(day.to_le_bytes());
    }
    for (line, input) in [
        ("decode", &zeros),
        ("decode --json", &zeros),
        ("decode --terse", &zeros),
        ("address --pitch 100 --height 3 --size 4", &pairs),
        ("replay", &log),
        ("replay --json", &log),
        ("replay --csv", &log),
    ] {
        assert_eq!(egretfold(line, input).status.code(), Some(1), "{line}");
        assert_eq!(status_unread(line, input), Some(1), "{line}");
    }
    let good = [0x00, 0x09, 0x00, 0xC0, 0, 0, 0, 0].repeat(100_000);
    assert_eq!(status_unread("decode", &good), Some(0));
}

/// Masks without an end are not kept: here there are 200 MB of room for 400 MB of them.
#[test]
fn masks_are_counted_while_they_are_read() {
    let program = env!("CARGO_BIN_EXE_egretfold");
    let line = format!(
        "ulimit -v 200000; yes 0,0 | head -c 400000000 | {program} flow --hex samples/branch.hex --masks -"
    );
    let mut shell = Command::new("sh");
    shell.args(["-c", &line]);
    let output = with_input(shell, b"");
    assert_eq!(output.status.code(), Some(2));
    let due = "egretfold: masks for over 1000000 steps, which are the most\n";
    assert_eq!(complained(&output), due);
    let million = "flow --hex samples/branch.hex 0,0 --repeat 1000000 --quiet";
    assert_eq!(egretfold(million, b"").status.code(), Some(0));
}

/// Whether a terminal would show it and do nothing else.
fn is_plain(text: &[u8]) -> bool {
    let text = String::from_utf8_lossy(text);
    text.chars()
        .all(|letter| letter == '\n' || !letter.is_control())
}

fn assert_plain(output: &Output, what: &str) {
    assert!(is_plain(&output.stdout), "{what}: {:?}", told(output));
    assert!(is_plain(&output.stderr), "{what}: {:?}", complained(output));
}

const EVIL: &str = "\u{1b}[31mred\u{9b}2J\u{7f}\n\r\u{202e}";

#[test]
fn no_name_reaches_a_terminal_raw() {
    let folder = Folder::new("names");
    for (sample_name, lines) in [
        (
            "station-14.log",
            &["replay", "replay --json", "replay --csv"][..],
        ),
        ("refused.log", &["replay", "replay --json"]),
        ("damaged.log", &["replay"]),
        (
            "whole.ctm",
            &[
                "decode",
                "decode --summary",
                "decode --json",
                "decode --hex",
                "encode",
            ],
        ),
        ("several.ctm", &["flow"]),
    ] {
        let name = folder.0.join(format!("{EVIL}{sample_name}"));
        fs::write(&name, sample(sample_name)).expect("the file is written");
        for line in lines {
            let output = program().args(line.split_whitespace()).arg(&name).output();
            assert_plain(&output.expect("it runs"), line);
        }
        for form in ["", "--json", "--csv"] {
            let mut command = program();
            command
                .arg("score")
                .args(APRIL.split_whitespace())
                .args(form.split_whitespace());
            command
                .args(["--station", EVIL, "--lessee", EVIL])
                .arg(&name);
            assert_plain(&command.output().expect("it runs"), "score");
        }
        fs::remove_file(&name).expect("it goes");
        let output = program()
            .arg("decode")
            .arg(&name)
            .output()
            .expect("it runs");
        assert_eq!(output.status.code(), Some(2));
        assert_plain(&output, "a file that isn't there");
    }
}

#[test]
fn no_argument_and_no_listing_reaches_a_terminal_raw() {
    for line in [
        &[EVIL][..],
        &["explain", EVIL],
        &["decode", "--no-such", EVIL],
        &["tile", "--size", EVIL],
        &[
            "locate", "--pitch", "100", "--height", "3", "--size", "4", EVIL,
        ],
        &["flow", "--hex", "samples/branch.hex", EVIL],
        &["completions", EVIL],
        &["--output", "/no-such\u{1b}/x", "explain"],
    ] {
        let output = program().args(line).output().expect("it runs");
        assert_eq!(output.status.code(), Some(2), "{line:?}");
        assert_plain(&output, "a wrong line");
    }
    for (line, input) in [
        ("encode", "\u{1b}[31mEVIL: 0\n"),
        ("encode --hex", "set_\u{1b}[31m 0\n"),
        ("encode --hex", "0: \u{1b}[31m\n"),
        ("decode --hex", "\u{1b}[31m"),
        ("address --pitch 100 --height 3 --size 4", "\u{1b}[31m"),
    ] {
        let output = egretfold(line, input.as_bytes());
        assert_eq!(output.status.code(), Some(2), "{line}");
        assert_plain(&output, line);
    }
    let output = egretfold("encode", "\u{1b}[31mEVIL: 0\n".as_bytes());
    let due = "egretfold: standard input: line 1: position \\u001b[31mEVIL stands where 0 is due\n";
    assert_eq!(complained(&output), due);
}

#[test]
fn options_that_mean_nothing_are_refused() {
    for line in [
        "locate --hex --words 5 --pitch 100 --height 3 --size 4 0",
        "locate --hex --pitch 100 --height 3 --size 4 0",
        "locate --words 5 --pitch 100 --height 3 --size 4 0",
        "locate --stream samples/whole.ctm --base ZZZ 0",
        "locate --stream samples/whole.ctm --base 0 0",
        "flow --hex samples/branch.hex --repeat 3",
        "flow --hex samples/branch.hex 0,0 --repeat 0",
        "tile --size 4 --mark 1,1 --column 0",
        "decode --plain samples/whole.ctm",
        "replay --plain --json samples/three-days.log",
        "replay --csv --json samples/three-days.log",
        "explain --quiet --output /dev/null",
    ] {
        let output = egretfold(line, b"");
        assert_eq!(output.status.code(), Some(2), "{line}");
        assert_eq!(told(&output), "", "{line}");
        assert_ne!(complained(&output), "", "{line}");
    }
}

#[test]
fn a_refused_stream_is_told_by_the_status_of_locate() {
    let text = egretfold("locate --stream samples/refused.hex --hex 800", b"");
    assert_eq!(text.status.code(), Some(1));
    assert!(complained(&text).starts_with("egretfold: samples/refused.hex: word 12: refused 6, "));
    let json = egretfold("locate --stream samples/whole.ctm --json 0", b"");
    assert_eq!(json.status.code(), Some(1));
    assert_eq!(last_line(&told(&json))["refused"], 12);
    let owned = egretfold("locate --stream samples/whole.ctm --json 1000", b"");
    assert_eq!(owned.status.code(), Some(0));
    assert!(last_line(&told(&owned)).get("refused").is_none());
}

#[test]
fn a_folder_is_told_before_anything_is_answered() {
    for line in [
        "replay samples",
        "replay samples/three-days.log samples",
        "decode samples",
        "decode --summary --json samples",
    ] {
        let output = egretfold(line, b"");
        assert_eq!(output.status.code(), Some(2), "{line}");
        assert_eq!(told(&output), "", "{line}");
        assert_eq!(complained(&output), "egretfold: samples: is a folder\n");
    }
}

#[test]
fn a_line_has_at_most_65536_bytes() {
    for (blanks, end, status) in [
        (65_535, "\n", 0),
        (65_535, "", 0),
        (65_536, "\n", 2),
        (65_536, "", 2),
    ] {
        let text = format!("0{}{end}", " ".repeat(blanks));
        let output = egretfold("encode --hex", text.as_bytes());
        assert_eq!(
            output.status.code(),
            Some(status),
            "{}",
            complained(&output)
        );
        // Also behind another line.
        let output = egretfold("encode --hex", format!("1\n{text}").as_bytes());
        assert_eq!(
            output.status.code(),
            Some(status),
            "{}",
            complained(&output)
        );
    }
}

#[test]
fn counts_are_read_the_same_way_everywhere() {
    for (line, same) in [
        ("tile --size 0x4 --column 0x1", "tile --size 4 --column 1"),
        ("explain 0x6", "explain 6"),
        (
            "locate --stream samples/whole.ctm --words 0x8 800",
            "locate --stream samples/whole.ctm --words 8 800",
        ),
    ] {
        assert_eq!(egretfold(line, b"").status.code(), Some(0), "{line}");
        assert_eq!(told(&egretfold(line, b"")), told(&egretfold(same, b"")));
    }
    for line in [
        "tile --size +4",
        "tile --size 4 --row +0",
        "explain +6",
        "locate --stream samples/whole.ctm --words +8 800",
        "flow --hex samples/branch.hex --processors +8",
    ] {
        let output = egretfold(line, b"");
        assert_eq!(output.status.code(), Some(2), "{line}");
        assert!(
            complained(&output).contains("is no decimal number"),
            "{line}"
        );
    }
}

#[test]
fn a_position_is_a_number_and_one_colon() {
    for (line, status) in [
        ("0: 1", 0),
        ("+0: 1", 2),
        ("0::::: 1", 2),
        (": 1", 2),
        ("0x0: 1", 2),
    ] {
        let output = egretfold("encode --hex", line.as_bytes());
        assert_eq!(output.status.code(), Some(status), "{line}");
    }
}

#[test]
fn a_group_is_refused_with_masks_or_without() {
    for masks in ["", "0,0"] {
        for (size, status) in [("0", 1), ("1", 0), ("32", 0), ("33", 1), ("99", 1)] {
            let line = format!("flow --hex samples/branch.hex --processors {size} {masks}");
            assert_eq!(egretfold(&line, b"").status.code(), Some(status), "{line}");
        }
    }
}

/// A line, its input, and what is to be told of it.
const HINTS: &[(&str, &str, &str)] = &[
    (
        "locate --base 2048 --pitch 100 --height 3 --size 4 2839",
        "",
        "\n  --base 2048 is read as hex; with --decimal it is 00000800\n",
    ),
    (
        "locate --pitch 100 --height 3 --size 4 1100",
        "",
        "\n  1100 is read as hex; with --decimal it is 0000044C\n",
    ),
    (
        "locate --pitch 100 --height 3 --size 4",
        "0\n1100\n",
        "\n  1100 is read as hex; with --decimal it is 0000044C\n",
    ),
    (
        "address --base 2048 --pitch 100 --height 3 --size 4 0,0",
        "",
        "\n  --base 2048 is read as hex; with --decimal it is 00000800\n",
    ),
    (
        "decode --hex",
        "C0038000",
        ": the guide's word for set_domain is C0030700\n",
    ),
    (
        "decode --hex",
        "C0008100",
        ": the guide's word for start_program is C0000800\n",
    ),
    (
        "decode samples/three-days.log",
        "",
        "\n  this looks like a station's log: try egretfold replay, or score\n",
    ),
    (
        "encode samples/three-days.log",
        "",
        "\n  this looks like a station's log: try egretfold replay, or score\n",
    ),
    (
        "replay samples/whole.ctm",
        "",
        "\n  this looks like command words in binary: try egretfold decode\n",
    ),
    (
        "score samples/whole.ctm --first-day 1 --days 1 --owed 1",
        "",
        "\n  this looks like command words in binary: try egretfold decode\n",
    ),
    (
        "decode samples/whole.hex",
        "",
        "\n  this looks like words in hex text: try --hex\n",
    ),
    (
        "replay samples/whole.hex",
        "",
        "\n  this looks like words in hex text: try egretfold decode --hex\n",
    ),
    (
        "flow samples/several.txt",
        "",
        "\n  this looks like a listing: try egretfold encode, and decode what it writes\n",
    ),
    (
        "flow",
        "1000 2000 3000",
        "\n  this looks like words in hex text: try --hex\n",
    ),
    (
        "decode --hex samples/whole.ctm",
        "",
        "\n  this looks like command words in binary: try it without --hex\n",
    ),
    (
        "decode samples/several.txt",
        "",
        "\n  this looks like a listing: try egretfold encode, and decode what it writes\n",
    ),
    (
        "encode --hex",
        "set_domian 0 0 0 0\n",
        "\"set_domian\" is no command; set_domain is one\n",
    ),
    (
        "encode --hex",
        "no_such_thing_at_all\n",
        "\"no_such_thing_at_all\" is no command\n",
    ),
    ("scor", "", "Did you mean 'score'?"),
    (
        "score --first-day -1 --days 1 --owed 1",
        "",
        "'-1' for '--first-day <D>': -1 is below 0, the least",
    ),
    (
        "score --first-day 1 --days -1 --owed 1",
        "",
        "-1 is below 0, the least",
    ),
];

#[test]
fn hints_say_what_to_try() {
    for (line, input, due) in HINTS {
        let told = complained(&egretfold(line, input.as_bytes()));
        assert!(told.contains(due), "{line}: {told}");
    }
    // None where nothing better is known.
    for line in [
        "locate --pitch 100 --height 3 --size 4 99999",
        "locate --decimal --pitch 100 --height 3 --size 4 99999",
        "replay samples/damaged.log",
        "decode --hex samples/refused.hex",
    ] {
        let told = complained(&egretfold(line, b""));
        assert_eq!(told.lines().count(), 1, "{told}");
    }
}

#[test]
fn digits_stand_in_groups_unless_plain() {
    for (line, grouped, plain) in [
        (
            format!("score samples/station-14.log {APRIL}"),
            " 357,372,800 ",
            " 357372800 ",
        ),
        (
            "replay samples/station-14.log".to_string(),
            "  14,745,600\n",
            "  14745600\n",
        ),
        (
            "decode --summary samples/whole.ctm".to_string(),
            "  set_domain            1\n",
            "  set_domain            1\n",
        ),
    ] {
        assert!(told(&egretfold(&line, b"")).contains(grouped), "{line}");
        let line = format!("{line} --plain");
        assert!(told(&egretfold(&line, b"")).contains(plain), "{line}");
    }
    let waits = [0x00, 0x09, 0x00, 0xC0, 0, 0, 0, 0].repeat(1_000);
    let summary = told(&egretfold("decode --summary", &waits));
    assert!(
        summary.contains("  wait_for_idle         1,000\n"),
        "{summary}"
    );
}

#[test]
fn quiet_prints_no_answer_and_keeps_the_status() {
    for (line, status) in [
        (format!("score samples/station-14.log {APRIL}"), 3),
        ("decode samples/whole.ctm".to_string(), 0),
        ("decode --hex samples/refused.hex".to_string(), 1),
        ("replay samples/refused.log".to_string(), 1),
        ("explain 0".to_string(), 2),
    ] {
        let loud = egretfold(&line, b"");
        for quiet in [format!("{line} --quiet"), format!("-q {line}")] {
            let output = egretfold(&quiet, b"");
            assert_eq!(output.status.code(), Some(status), "{quiet}");
            assert_eq!(told(&output), "", "{quiet}");
            assert_eq!(complained(&output), complained(&loud), "{quiet}");
        }
    }
}

#[test]
fn the_answer_goes_into_a_file_whole_or_not_at_all() {
    let folder = Folder::new("output");
    let file = folder.0.join("answer").display().to_string();
    let read = || fs::read(&file).expect("the answer is there");
    for (line, status) in [
        ("decode samples/whole.ctm", 0),
        ("encode samples/several.txt", 0),
        ("decode --hex samples/refused.hex", 1),
    ] {
        let output = egretfold(&format!("{line} --output {file}"), b"");
        assert_eq!(output.status.code(), Some(status), "{line}");
        assert_eq!(told(&output), "", "{line}");
        assert_eq!(read(), egretfold(line, b"").stdout, "{line}");
    }
    // Not where a file is wrong: what stood there stays.
    let before = read();
    for line in [
        "decode samples/nothing.ctm",
        "explain 0",
        "decode --hex samples/whole.ctm",
    ] {
        let output = egretfold(&format!("{line} --output {file}"), b"");
        assert_eq!(output.status.code(), Some(2), "{line}");
        assert_eq!(read(), before, "{line}");
    }
    // Nor over a file that is read.
    let log = folder.write("month.log", &sample("station-14.log"));
    let link = folder.0.join("link").display().to_string();
    symlink("month.log", &link).expect("a link");
    for name in [&log, &link] {
        let output = egretfold(&format!("replay {log} --output {name}"), b"");
        assert_eq!(output.status.code(), Some(2));
        assert!(complained(&output).contains("which is read: it is left as it is"));
        assert_eq!(fs::read(&log).expect("the log"), sample("station-14.log"));
    }
    for (name, status) in [("/dev/null", 0), ("/dev/full", 2), ("samples", 2), ("-", 0)] {
        let output = egretfold(&format!("explain --output {name}"), b"");
        assert_eq!(output.status.code(), Some(status), "{name}");
    }
    let left = fs::read_dir(&folder.0).expect("the folder").count();
    assert_eq!(left, 3, "nothing half written is left");
}

#[test]
fn a_picture_goes_to_standard_output_and_behind_links() {
    let folder = Folder::new("links");
    let file = folder.0.join("april.svg").display().to_string();
    let line = format!("score samples/station-14.log {APRIL} --issued 2026-05-02");
    egretfold(&format!("{line} --svg {file}"), b"");
    let picture = fs::read_to_string(&file).expect("the picture is there");
    let output = egretfold(&format!("{line} --svg -"), b"");
    assert_eq!(output.status.code(), Some(3));
    assert_eq!(told(&output), picture);
    for form in ["--json", "--csv"] {
        let output = egretfold(&format!("{line} --svg - {form}"), b"");
        assert_eq!(output.status.code(), Some(2), "{form}");
    }
    // A link that leads to nothing yet, by another link.
    let (near, far) = (folder.0.join("near.svg"), folder.0.join("far.svg"));
    symlink("far.svg", &near).expect("a link");
    symlink("new.svg", &far).expect("a link");
    egretfold(&format!("{line} --svg {}", near.display()), b"");
    for link in [near, far] {
        let about = fs::symlink_metadata(&link).expect("the link");
        assert!(about.file_type().is_symlink());
        assert_eq!(fs::read_to_string(&link).expect("the picture"), picture);
    }
    let around = folder.0.join("around.svg");
    symlink("around.svg", &around).expect("a link");
    let output = egretfold(&format!("{line} --svg {}", around.display()), b"");
    assert_eq!(output.status.code(), Some(2));
}

/// Runs a line of shell on a terminal of its own and gives what the terminal got.
pub fn on_a_terminal(line: &str) -> String {
    let mut script = Command::new("script");
    script.args(["-qec", line, "/dev/null"]).current_dir(root());
    let output = script.stdin(Stdio::null()).output().expect("it runs");
    String::from_utf8_lossy(&output.stdout).into_owned()
}

/// A file that takes over a second to be read, and its bar: none on terminals that would
/// break it, and nothing left of it when the program is interrupted.
#[test]
fn a_bar_is_shown_where_it_can_be() {
    let folder = Folder::new("bar");
    let file = folder.0.join("zeros");
    let long = fs::File::create(&file).and_then(|file| file.set_len(16 << 30));
    long.expect("a file of holes");
    let program = env!("CARGO_BIN_EXE_egretfold");
    let reading = format!(
        "timeout --foreground -s INT 2 {program} decode --summary {}",
        file.display()
    );
    let clear = "\u{1b}[2K";
    let shown = on_a_terminal(&format!("stty cols 100 rows 30; TERM=xterm {reading}"));
    assert!(shown.contains(" of 16.00 GiB"), "{shown:?}");
    let behind = shown.rsplit("left").next().unwrap_or_default();
    assert!(behind.contains(clear), "{behind:?}");
    for terminal in [
        "stty cols 100 rows 30; TERM=dumb",
        "stty cols 40 rows 30; TERM=xterm",
    ] {
        let shown = on_a_terminal(&format!("{terminal} {reading}"));
        assert!(!shown.contains("GiB"), "{shown:?}");
    }
}

#[test]
fn a_terminal_is_told_and_spared() {
    let program = env!("CARGO_BIN_EXE_egretfold");
    let line = format!("timeout --foreground 1 {program} score --first-day 1 --days 1 --owed 1");
    let shown = on_a_terminal(&line);
    assert!(
        shown.contains("egretfold: reading standard input; Ctrl-D ends it"),
        "{shown}"
    );
    let shown = on_a_terminal(&format!("echo 1b5b33 | timeout 5 {program} encode"));
    assert!(
        shown.contains("words in binary are nothing for a terminal"),
        "{shown}"
    );
}

#[test]
fn tables_for_programs() {
    let json = egretfold("tile --size 4 --mark 37,18 --json", b"");
    let tile = last_line(&told(&json));
    // The chapter on addresses works this pair by hand.
    assert_eq!(tile["mark"]["inside"], 1636);
    assert_eq!((&tile["column"], &tile["row"]), (&1.into(), &1.into()));
    let rows: Vec<Vec<u32>> = serde_json::from_value(tile["blocks"].clone()).expect("rows");
    let mut numbers = rows.concat();
    numbers.sort_unstable();
    assert_eq!(numbers, (0..64).collect::<Vec<u32>>());
    let text = told(&egretfold("tile --size 4 --mark 37,18", b""));
    assert!(text.contains("  [51]") && text.contains("  [4]"), "{text}");
    let outside = egretfold("tile --size 4 --mark 4096,0", b"");
    assert_eq!(outside.status.code(), Some(1));
    let csv = told(&egretfold("replay --csv samples/three-days.log", b""));
    let due =
        "day,runs,claimed,edition\nbefore,1,1728,1\n101,2,3456,1\n102,1,1728,1\n103,2,1728,1\n";
    assert_eq!(csv, due);
    let refused = egretfold("replay --csv samples/refused.log", b"");
    assert_eq!(refused.status.code(), Some(1));
    assert!(complained(&refused).contains("day 102: word refused 4, "));
}

/// C7 and C8 of document 01.
#[test]
fn a_refused_pair_is_worked_up_to_its_refusal() {
    for (line, due) in [
        (
            "address --tiled --size 4 --pitch 28 --height 1 --work 0,0",
            "  row step   E = 0: pitch 28 cut down to a multiple of the tile's width, 32\n  refused    6: ",
        ),
        (
            "address --base FFFFF800 --pitch 8 --height 65 --size 4 --work 0,0",
            "  end        base FFFFF800 + 2080 = 100000020\n  refused    6: ",
        ),
        (
            "address --pitch 100 --height 3 --size 4 --work 96,0",
            "  refused    10: outside the window: x 96 is not below row step 96\n",
        ),
        (
            "locate --pitch 100 --height 3 --size 4 --work 480",
            "  end        base 00000000 + 1152 = 00000480\n  refused    12: ",
        ),
        (
            "address --pitch 100 --height 3 --size 5 --work 0,0",
            "  layout     base 00000000, pitch 100, height 3, 5 bytes an element, linear\n  refused    3: ",
        ),
    ] {
        let output = egretfold(line, b"");
        assert_eq!(output.status.code(), Some(1), "{line}");
        assert!(told(&output).contains(due), "{}", told(&output));
        let json = last_line(&told(&egretfold(&format!("{line} --json"), b"")));
        let work = json["work"].as_array().expect("the working");
        assert_eq!(work.last().expect("its end")["step"], "refused");
    }
}

#[test]
fn completions_and_the_manual_know_every_subcommand() {
    let help = told(&egretfold("--help", b""));
    let names = help.lines().skip_while(|line| *line != "Commands:").skip(1);
    let names: Vec<&str> = names
        .take_while(|line| !line.is_empty())
        .filter_map(|line| line.split_whitespace().next())
        .filter(|name| *name != "help")
        .collect();
    assert!(names.len() >= 11, "{names:?}");
    let manual = told(&egretfold("manual", b""));
    for name in &names {
        assert!(manual.contains(&format!("\n.SS {name}\n")), "{name}");
        let help = told(&egretfold(&format!("{name} --help"), b""));
        for word in help
            .split_whitespace()
            .filter(|word| word.starts_with("--"))
        {
            let option = word.trim_end_matches(|letter: char| !letter.is_ascii_alphanumeric());
            let shown = option.replace('-', "\\-");
            let known = option == "--help" || manual.contains(&shown);
            assert!(known, "{name} {option}");
        }
    }
    for shell in ["bash", "zsh", "fish", "elvish", "powershell"] {
        let output = egretfold(&format!("completions {shell}"), b"");
        assert_eq!(output.status.code(), Some(0), "{shell}");
        let text = told(&output);
        for name in names.iter().chain(&["--first-day", "--output"]) {
            let name = name.trim_start_matches("--");
            assert!(text.contains(name), "{shell}: {name}");
        }
    }
    let bash = told(&egretfold("completions bash", b""));
    let mut check = Command::new("bash");
    check.args(["-n", "-s"]);
    let read = with_input(check, bash.as_bytes());
    assert_eq!(complained(&read), "");
}

/// The bytes as gzip packs them.
fn packed(bytes: &[u8]) -> Vec<u8> {
    let mut gzip = Command::new("gzip");
    gzip.arg("-c");
    with_input(gzip, bytes).stdout
}

#[test]
fn what_gzip_packed_is_read_by_its_first_bytes() {
    let folder = Folder::new("gzip");
    for (name, line) in [
        ("station-14.log", format!("score FILE {APRIL} --csv")),
        ("station-14.log", "replay --csv FILE".to_string()),
        ("whole.ctm", "decode FILE".to_string()),
        ("whole.ctm", "locate --stream FILE 1000".to_string()),
        ("whole.hex", "decode --hex FILE".to_string()),
        ("several.txt", "encode FILE".to_string()),
        (
            "branch.hex",
            "flow --hex FILE --masks samples/branch.masks --quiet".to_string(),
        ),
    ] {
        let plain = egretfold(&line.replace("FILE", &format!("samples/{name}")), b"");
        let bytes = packed(&sample(name));
        // By its bytes, not by its name.
        for name in [format!("{name}.gz"), name.to_string()] {
            let file = folder.write(&name, &bytes);
            let output = egretfold(&line.replace("FILE", &file), b"");
            assert_eq!(output.status.code(), plain.status.code(), "{line}");
            assert_eq!(output.stdout, plain.stdout, "{line}");
        }
        let output = egretfold(&line.replace("FILE", "-"), &bytes);
        assert_eq!(output.stdout, plain.stdout, "{line}");
    }
    // Days packed one by one are one log, also in one file.
    let log = sample("three-days.log");
    let (first, second) = log.split_at(61);
    let both = [packed(first), packed(second)].concat();
    let whole = told(&egretfold("replay", &log));
    assert_eq!(told(&egretfold("replay", &both)), whole);
    // What is cut short or damaged has no score.
    let cut = &both[..both.len() - 9];
    let output = egretfold("score --first-day 101 --days 1 --owed 1", cut);
    assert_eq!(output.status.code(), Some(2));
    assert_eq!(told(&output), "");
    assert!(
        complained(&output).contains("of what gzip packed"),
        "{}",
        complained(&output)
    );
}
