//! The files of a line: nothing that is read is written over, by whatever name; all that is written is put in its place
//! together, the state last, or not at all; and what another program left or a signal cut short is no trouble.

use crate::common::{complained, egretfold, root, sample, told, with_input, Folder};
use std::fs::{self, File, Permissions};
use std::os::unix::fs::{symlink, MetadataExt, PermissionsExt};
use std::process::{Command, Output, Stdio};
use std::time::{Duration, Instant};
use std::{iter, thread};

const APRIL: &str =
    "--first-day 101 --days 30 --owed 14000000 --from 2026-04-01 --issued 2026-05-02";

/// Runs the line in the folder by a shell, with its redirections; `egretfold` is the command.
fn shell(folder: &Folder, line: &str) -> Output {
    let program = env!("CARGO_BIN_EXE_egretfold");
    let mut bash = Command::new("bash");
    bash.args([
        "-c",
        &format!("egretfold() {{ '{program}' \"$@\"; }}; {line}"),
    ]);
    bash.current_dir(&folder.0).stdin(Stdio::null());
    bash.output().expect("the shell runs")
}

/// The folder's files but for those that are named, with what stands in them.
fn all(folder: &Folder) -> Vec<(String, Vec<u8>)> {
    let entries = fs::read_dir(&folder.0).expect("the folder");
    let paths = entries.map(|entry| entry.expect("an entry").path());
    let mut files: Vec<(String, Vec<u8>)> = paths
        .filter(|path| path.is_file())
        .map(|path| (path.display().to_string(), fs::read(&path).expect("a file")))
        .collect();
    files.sort();
    files
}

/// A folder with one of each: a log by several names, a state, lease files, scores, a stream, memory, a picture.
fn folder(name: &str) -> Folder {
    let folder = Folder::new(name);
    for (name, from) in [
        ("y.log", "station-14.log"),
        ("m.state", "station-14-march.state"),
        ("april.log", "station-14-april.log"),
        ("s.ctm", "camera.ctm"),
        ("m.mem", "camera.mem"),
        ("p.ppm", "camera.ppm"),
        ("b.hex", "branch.hex"),
        ("b.masks", "branch.masks"),
        ("l.hex", "loops.hex"),
        ("l.integers", "loops.integers"),
        ("k.registers", "kill.registers"),
        ("i.ctm", "intruder.ctm"),
        ("i.parties", "intruder.parties"),
        ("t.txt", "several.txt"),
    ] {
        folder.write(name, &sample(from));
    }
    symlink("y.log", folder.0.join("link")).expect("a link");
    fs::hard_link(folder.0.join("y.log"), folder.0.join("hard")).expect("a link");
    let leases = "station,log,first day,days,owed\n14,y.log,101,30,14000000\n";
    folder.write("leases.csv", leases.as_bytes());
    // Which doesn't look like a log, so that it is known by the lease file alone.
    folder.write("packed.csv", leases.replace("y.log", "y.gz").as_bytes());
    assert!(shell(&folder, "gzip -c y.log >y.gz").status.success());
    let line = format!("egretfold score y.log {APRIL} --station 14 --json >scores");
    assert_eq!(shell(&folder, &line).status.code(), Some(3));
    folder
}

/// Lines whose output is one of their inputs, with the two that are told.
const AIMED: &[(&str, &str, &str)] = &[
    ("score y.log --first-day 101 --days 0 --owed 1 -o y.log", "--output y.log", "LOG y.log"),
    ("score y.log --first-day 101 --days 30 --owed 1 --edition 9 -o ./y.log", "--output ./y.log", "LOG y.log"),
    ("score no-such y.log --first-day 101 --days 30 --owed 1 -o link", "--output link", "LOG y.log"),
    ("score y.log --first-day 101 --days 30 --owed 1 -o hard", "--output hard", "LOG y.log"),
    ("score - --first-day 101 --days 0 --owed 1 -o y.log <y.log", "--output y.log", "standard input"),
    ("score y.log --first-day 101 --days 30 --owed 1 --html y.log", "--html y.log", "LOG y.log"),
    ("score y.log --first-day 101 --days 30 --owed 1 --svg $PWD/y.log", "--svg", "LOG y.log"),
    ("score y.log --first-day 101 --days 30 --owed 1 --save y.log", "--save y.log", "LOG y.log"),
    ("score april.log --resume m.state --first-day 101 --days 30 --owed 1 -o m.state", "--output m.state", "--resume m.state"),
    ("replay april.log --resume m.state -o m.state", "--output m.state", "--resume m.state"),
    ("replay april.log --resume m.state --save m.state -o m.state", "--output m.state", "--save m.state"),
    ("replay -o y.log <y.log", "--output y.log", "standard input"),
    ("replay --edition 7 -o y.log <y.log", "--output y.log", "standard input"),
    ("replay /dev/stdin -o y.log <y.log", "--output y.log", "LOG /dev/stdin"),
    ("replay /dev/fd/5 -o y.log 5<y.log", "--output y.log", "LOG /dev/fd/5"),
    ("replay y.log >>y.log", "standard output", "LOG y.log"),
    ("replay y.log -o /dev/fd/7 7>>y.log", "--output /dev/fd/7", "LOG y.log"),
    ("replay y.log --save z -o z", "--save z", "--output z"),
    ("replay y.log --save ./z -o z", "--save ./z", "--output z"),
    ("score y.log --first-day 101 --days 30 --owed 1 --svg z --html z", "--html z", "--svg z"),
    ("score y.log --first-day 101 --days 30 --owed 1 --svg z -o z", "--svg z", "--output z"),
    ("fleet packed.csv --commands -o y.gz", "--output y.gz", "the log of station 14 y.gz"),
    ("fleet packed.csv --commands >>y.gz", "standard output", "the log of station 14 y.gz"),
    ("fleet leases.csv -o leases.csv", "--output leases.csv", "LEASES.csv leases.csv"),
    ("fleet leases.csv --edition 9 -o leases.csv", "--output leases.csv", "LEASES.csv leases.csv"),
    ("fleet packed.csv --from-scores scores -o y.gz", "--output y.gz", "the log of station 14 y.gz"),
    ("fleet --from-scores scores -o scores", "--output scores", "--from-scores scores"),
    ("fleet --from-scores scores --html scores", "--html scores", "--from-scores scores"),
    ("fleet leases.csv --cards . --html 14.svg", "--cards ./14.svg", "--html 14.svg"),
    ("fleet --from-scores scores --cards . -o 14.svg", "--cards ./14.svg", "--output 14.svg"),
    ("decode s.ctm -o s.ctm", "--output s.ctm", "FILE s.ctm"),
    ("decode i.ctm --parties i.parties --owners 0:2 -o i.parties", "--output i.parties", "--parties i.parties"),
    ("encode t.txt -o t.txt", "--output t.txt", "FILE t.txt"),
    ("flow --hex b.hex --masks b.masks -o b.hex", "--output b.hex", "FILE b.hex"),
    ("flow --hex b.hex --masks b.masks -o b.masks", "--output b.masks", "--masks b.masks"),
    ("flow --hex l.hex --integers l.integers -o l.integers", "--output l.integers", "--integers l.integers"),
    ("flow --hex b.hex --masks b.masks --kill 1:F:k.registers -o k.registers", "--output k.registers", "--kill k.registers"),
    ("locate --stream s.ctm 800 -o s.ctm", "--output s.ctm", "--stream s.ctm"),
    ("locate --size 4 --pitch 100 --height 3 -o t.txt <t.txt", "--output t.txt", "standard input"),
    ("address --size 4 --pitch 100 --height 3 -o t.txt <t.txt", "--output t.txt", "standard input"),
    ("survey --stream s.ctm --memory m.mem --at 800 --value 300 --pgm m.mem", "--pgm m.mem", "--memory m.mem"),
    ("survey --stream s.ctm --memory m.mem --at 800 --value 300 --svg s.ctm", "--svg s.ctm", "--stream s.ctm"),
    ("survey --stream s.ctm --memory m.mem --at 800 --value 300 -o m.mem", "--output m.mem", "--memory m.mem"),
    ("survey --stream s.ctm --memory m.mem --at 800 --value 300 --svg z --pgm z", "--svg z", "--pgm z"),
    ("picture --memory m.mem --at 800 --stream s.ctm --window output-0 --out m.mem --replace", "--out m.mem", "--memory m.mem"),
    ("picture --memory m.mem --at 800 --stream s.ctm --window output-0 --out s.ctm --replace", "--out s.ctm", "--stream s.ctm"),
    ("picture --memory m.mem --at 800 --stream s.ctm --window output-0 --in p.ppm --to m.mem --replace", "--to m.mem", "--memory m.mem"),
    ("picture --memory m.mem --at 800 --stream s.ctm --window output-0 --in p.ppm --to p.ppm --replace", "--to p.ppm", "--in p.ppm"),
];

#[test]
fn no_output_is_an_input_or_another_output() {
    let folder = folder("aimed");
    let before = all(&folder);
    for (line, one, other) in AIMED {
        let output = shell(&folder, &format!("egretfold {line}"));
        assert_eq!(output.status.code(), Some(2), "{line}");
        assert_eq!(told(&output), "", "{line}");
        let complaint = complained(&output);
        assert!(
            complaint.contains(one) && complaint.contains(other),
            "{line}: {complaint}"
        );
        assert!(complaint.contains(" are one file"), "{line}: {complaint}");
        assert!(all(&folder) == before, "{line} changed a file");
    }
}

/// An answer has no mark, so it replaces anything but what no answer can be: a state, and what looks like a log.
#[test]
fn an_answer_replaces_no_state_and_no_log() {
    let folder = folder("answers");
    let before = all(&folder);
    for (name, is) in [
        ("m.state", "is a state file"),
        ("y.log", "looks like a station's log"),
        ("hard", "looks like a station's log"),
        ("link", "looks like a station's log"),
    ] {
        let output = shell(&folder, &format!("egretfold decode s.ctm -o {name}"));
        assert_eq!(output.status.code(), Some(2), "{name}");
        let due = format!("egretfold: {name}: stands there and {is}; it is left as it is\n");
        assert_eq!(complained(&output), due);
        assert!(all(&folder) == before, "{name} was changed");
    }
    for name in ["t.txt", "p.ppm", "s.ctm"] {
        let output = shell(&folder, &format!("egretfold explain 3 -o {name}"));
        assert_eq!(output.status.code(), Some(0), "{name}");
    }
}

/// What was answered before stays, unless what is answered now tells of the refusal.
#[test]
fn a_refused_line_leaves_an_earlier_answer() {
    let folder = folder("earlier");
    folder.write("bad.txt", b"set_domain 0 0 5F 11\nset_out_mask FFFFFFFF\n");
    for line in [
        "score y.log --first-day 101 --days 0 --owed 1",
        "score y.log --first-day 101 --days 0 --owed 1 --csv",
        "encode bad.txt",
        "replay y.log --edition 7",
    ] {
        folder.write("answer", b"the one before");
        let output = shell(&folder, &format!("egretfold {line} -o answer"));
        assert_eq!(output.status.code(), Some(1), "{line}");
        let answer = fs::read(folder.0.join("answer")).expect("it stands");
        assert_eq!(answer, b"the one before", "{line}");
    }
    for line in [
        "score y.log --first-day 101 --days 0 --owed 1 --json",
        "decode --hex samples/refused.hex",
    ] {
        let answer = folder.write("answer", b"the one before");
        let due = egretfold(&line.replace("y.log", "samples/station-14.log"), b"");
        let output = egretfold(
            &line
                .replace("y.log", "samples/station-14.log --output ANSWER")
                .replace("refused.hex", "refused.hex --output ANSWER")
                .replace("ANSWER", &answer),
            b"",
        );
        assert_eq!(output.status.code(), Some(1), "{line}");
        assert_eq!(fs::read(answer).expect("it stands"), due.stdout, "{line}");
    }
}

/// Whatever of a line can't be written, nothing of it is moved, the state least of all.
#[test]
fn where_one_output_fails_none_is_put() {
    let folder = folder("together");
    fs::create_dir(folder.0.join("closed")).expect("a folder");
    let old = sample("station-14-march.state");
    let state = folder.write("old.state", &old);
    let score = format!("score april.log --resume m.state {APRIL}");
    for (line, status) in [
        (format!("{score} --save old.state -o /dev/full"), 2),
        (format!("{score} --save old.state --svg a.svg --html a.html -o /dev/full"), 2),
        (format!("{score} --save old.state --json >/dev/full"), 2),
        (format!("{score} --save old.state --svg - -o /dev/full"), 2),
        ("replay april.log --resume m.state --save old.state -o /dev/full".into(), 2),
        ("replay april.log --resume m.state --save old.state >/dev/full".into(), 2),
        ("fleet leases.csv --cards closed --html a.html -o /dev/full".into(), 2),
        ("fleet leases.csv --cards closed --html a.html >/dev/full".into(), 2),
        ("survey --stream s.ctm --memory m.mem --at 800 --value 300 --svg a.svg --pgm a.pgm -o /dev/full".into(), 2),
        ("picture --memory m.mem --at 800 --stream s.ctm --window output-0 --out a.ppm -o /dev/full".into(), 2),
    ] {
        let before = all(&folder);
        let output = shell(&folder, &format!("egretfold {line}"));
        assert_eq!(output.status.code(), Some(status), "{line}: {}", complained(&output));
        assert!(complained(&output).contains("No space left on device"), "{line}");
        assert!(all(&folder) == before, "{line} changed a file");
        assert_eq!(fs::read(&state).expect("it stands"), old, "{line}");
        let cards = fs::read_dir(folder.0.join("closed")).expect("the folder");
        assert_eq!(cards.count(), 0, "{line}");
    }
}

/// A file may not grow over so many blocks of 1,024 bytes: that is told as a full disk is, nothing is moved, and nothing half
/// written stays.
#[test]
fn a_file_that_may_not_grow_is_told_and_leaves_nothing() {
    let folder = folder("grow");
    folder.write("old.state", &sample("station-14-march.state"));
    for line in [
        format!(
            "score april.log --resume m.state {APRIL} --save old.state --svg a.svg --html a.html"
        ),
        "replay april.log --resume m.state --save old.state".to_string(),
        "decode y.log -o long".to_string(),
        "fleet leases.csv --html a.html".to_string(),
    ] {
        let before = all(&folder);
        let output = shell(&folder, &format!("ulimit -f 1; egretfold {line}"));
        assert_eq!(
            output.status.code(),
            Some(2),
            "{line}: {}",
            complained(&output)
        );
        assert!(
            complained(&output).contains("File too large"),
            "{line}: {}",
            complained(&output)
        );
        assert!(all(&folder) == before, "{line} changed a file");
    }
}

/// Both are told, and the status is that of what couldn't be written.
#[test]
fn a_refusal_and_a_failed_write_are_both_told() {
    let folder = folder("both");
    let damaged = root().join("samples/damaged.log").display().to_string();
    for line in [
        format!("replay {damaged} -o /dev/full"),
        format!("replay {damaged} --json >/dev/full"),
        format!("score {damaged} {APRIL} --json -o /dev/full"),
        format!("score {damaged} {APRIL} --svg - >/dev/full"),
    ] {
        let output = shell(&folder, &format!("egretfold {line}"));
        assert_eq!(output.status.code(), Some(2), "{line}");
        let complaint = complained(&output);
        assert!(complaint.contains("day 117 is due"), "{line}: {complaint}");
        assert!(complaint.contains("\negretfold: "), "{line}: {complaint}");
        assert!(
            complaint.contains("No space left on device"),
            "{line}: {complaint}"
        );
    }
}

/// A descriptor is written into where it stands; what is behind it is neither replaced nor written over.
#[test]
fn descriptors_are_written_into() {
    let folder = folder("descriptors");
    let answer = shell(&folder, "egretfold explain 3").stdout;
    for line in [
        "egretfold explain 3 -o /dev/stdout >f",
        "egretfold explain 3 -o /dev/fd/1 >f",
        "egretfold explain 3 -o /proc/self/fd/1 >f",
        "egretfold explain 3 -o /dev/fd/5 5>f",
        "egretfold explain 3 -o stdout >f",
        "egretfold explain 3 -o >(cat >f); for i in $(seq 100); do [[ -s f ]] && break; sleep 0.1; done",
    ] {
        folder.write("f", b"");
        let _ = symlink("/dev/stdout", folder.0.join("stdout"));
        let number = fs::metadata(folder.0.join("f")).expect("it stands").ino();
        let output = shell(&folder, line);
        assert_eq!(output.status.code(), Some(0), "{line}: {}", complained(&output));
        assert_eq!(fs::read(folder.0.join("f")).expect("it stands"), answer, "{line}");
        let same = fs::metadata(folder.0.join("f")).expect("it stands").ino();
        assert_eq!(same, number, "{line} replaced the file");
    }
    // What came before on the descriptor stays, and what comes behind stands behind.
    for name in ["/dev/stdout", "/dev/fd/1", "-"] {
        let line = format!("(echo before; egretfold explain 3 -o {name}; echo behind) >f");
        shell(&folder, &line);
        let due = [b"before\n", &answer[..], b"behind\n"].concat();
        assert_eq!(
            fs::read(folder.0.join("f")).expect("it stands"),
            due,
            "{name}"
        );
    }
    // A reader that goes away is no trouble.
    let line = "yes C0000900 0 | head -100000 | egretfold decode --hex -o >(head -1 >f)";
    let output = shell(&folder, line);
    assert_eq!(output.status.code(), Some(0), "{}", complained(&output));
    assert_eq!(complained(&output), "");
}

#[test]
fn modes_stay_and_new_files_get_the_users() {
    let folder = folder("modes");
    let mode = |name: &str| fs::metadata(folder.0.join(name)).expect(name).mode() & 0o7777;
    let line = format!("egretfold score april.log --resume m.state {APRIL} -o a --svg a.svg --html a.html --save a.state");
    for mask in ["022", "077", "002", "000"] {
        let anyone = 0o666 & !u32::from_str_radix(mask, 8).expect("octal");
        for name in ["a", "a.svg", "a.html", "a.state"] {
            let _ = fs::remove_file(folder.0.join(name));
        }
        shell(&folder, &format!("umask {mask}; {line}"));
        for name in ["a", "a.svg", "a.html", "a.state"] {
            assert_eq!(mode(name), anyone, "{name} under {mask}");
        }
        for (name, kept) in [
            ("a", 0o640),
            ("a.svg", 0o600),
            ("a.html", 0o604),
            ("a.state", 0o660),
        ] {
            let set = fs::set_permissions(folder.0.join(name), Permissions::from_mode(kept));
            set.expect("the mode is set");
        }
        shell(&folder, &format!("umask {mask}; {line}"));
        for (name, kept) in [
            ("a", 0o640),
            ("a.svg", 0o600),
            ("a.html", 0o604),
            ("a.state", 0o660),
        ] {
            assert_eq!(mode(name), kept, "{name} under {mask}");
        }
    }
}

/// Pictures and pages by other programs, and pictures out of memory, are left as they are.
#[test]
fn only_pictures_of_ours_are_replaced() {
    let folder = folder("ours");
    let score = format!("score y.log {APRIL}");
    let survey = "survey --stream s.ctm --memory m.mem --at 800 --value 300".to_string();
    for (line, option, others) in [
        (
            &score,
            "--svg",
            &[
                "<?xml version=\"1.0\"?>\n<svg/>",
                "<svg xmlns=\"http://www.w3.org/2000/svg\"/>",
            ][..],
        ),
        (
            &score,
            "--html",
            &[
                "<!DOCTYPE html>\n<html lang=\"en\"></html>",
                "<!doctype html>",
            ],
        ),
        (
            &survey,
            "--svg",
            &[
                "<?xml version=\"1.0\"?>\n<svg/>",
                "<svg xmlns=\"http://www.w3.org/2000/svg\"/>",
            ],
        ),
        (
            &survey,
            "--pgm",
            &["P5\n1 1\n255\n.", "P5\n# by another\n1 1\n255\n.", "P5"],
        ),
        (&score, "--save", &["egretfold stale", "x"]),
    ] {
        for other in others {
            folder.write("z", other.as_bytes());
            let output = shell(&folder, &format!("egretfold {line} {option} z"));
            assert_eq!(output.status.code(), Some(2), "{option} over {other}");
            assert!(
                complained(&output).contains("it is left as it is"),
                "{option} over {other}"
            );
            assert_eq!(
                fs::read(folder.0.join("z")).expect("it stands"),
                other.as_bytes()
            );
        }
        // Our own, and an empty one.
        for ours in ["new", "new", "empty"] {
            folder.write("empty", b"");
            let output = shell(&folder, &format!("egretfold {line} {option} {ours}"));
            assert_ne!(
                output.status.code(),
                Some(2),
                "{option}: {}",
                complained(&output)
            );
        }
        fs::remove_file(folder.0.join("new")).expect("it goes");
    }
}

/// What killed runs left doesn't block the next, whatever number its process has.
#[test]
fn leftovers_block_nothing() {
    let folder = folder("leftovers");
    let line = "for number in 0 1 2 3; do for any in $$ $BASHPID; do >.egretfold-$any-$number.part; done; done; \
        exec PROGRAM explain 3 -o answer";
    let line = line.replace("PROGRAM", env!("CARGO_BIN_EXE_egretfold"));
    let output = shell(&folder, &line);
    assert_eq!(output.status.code(), Some(0), "{}", complained(&output));
    assert!(!fs::read(folder.0.join("answer"))
        .expect("it stands")
        .is_empty());
}

/// The names in the folder that begin with a dot.
fn parts(folder: &Folder) -> usize {
    let entries = fs::read_dir(&folder.0).expect("the folder").flatten();
    entries
        .filter(|entry| entry.file_name().to_string_lossy().starts_with('.'))
        .count()
}

/// A signal that ends the program leaves nothing half written, and shells see which it was.
#[test]
fn signals_leave_nothing_half_written() {
    let folder = Folder::new("signals");
    let long = folder.0.join("zeros");
    let holes = File::create(&long).and_then(|file| file.set_len(16 << 30));
    holes.expect("a file of holes");
    for (signal, status) in [("INT", 130), ("TERM", 143), ("HUP", 129)] {
        let mut command = Command::new(env!("CARGO_BIN_EXE_egretfold"));
        command.args(["decode", "--summary", "zeros", "-o", "answer"]);
        command.current_dir(&folder.0).stderr(Stdio::null());
        let mut child = command.spawn().expect("the command runs");
        let begun = Instant::now();
        while parts(&folder) == 0 && begun.elapsed() < Duration::from_secs(60) {
            thread::sleep(Duration::from_millis(5));
        }
        assert_eq!(parts(&folder), 1, "it is being written");
        let sent = Command::new("kill")
            .args(["-s", signal, &child.id().to_string()])
            .status();
        assert!(sent.expect("kill runs").success());
        let ended = child.wait().expect("it ends");
        assert_eq!(ended.code(), Some(status), "{signal}");
        assert_eq!(parts(&folder), 0, "{signal}");
    }
    // One that is ignored, as nohup has it, stays so.
    let program = env!("CARGO_BIN_EXE_egretfold");
    let line = format!("trap '' HUP; (sleep 0.2; echo C0000900 0) | {program} decode --hex & sleep 0.05; kill -HUP $!; wait $!");
    assert_eq!(shell(&folder, &line).status.code(), Some(0));
}

/// Stations whose names become one are told before a card is written, with a lease file and without.
#[test]
fn cards_of_one_name_are_told_before_any_is_written() {
    let folder = folder("one-name");
    for (one, other) in [("Nord 3", "Nord-3"), ("a/b", "a b"), ("NORD", "nord")] {
        let rows = [one, other].map(|name| format!("{name},y.log,101,30,14000000\n"));
        let leases = iter::once("station,log,first day,days,owed\n".to_string()).chain(rows);
        folder.write("two.csv", leases.collect::<String>().as_bytes());
        let scores = format!(
            "for name in '{one}' '{other}'; do egretfold score y.log {APRIL} --station \"$name\" --json; done >two"
        );
        shell(&folder, &scores);
        for line in [
            "fleet two.csv --cards cards",
            "fleet --from-scores two --cards cards",
        ] {
            let output = shell(&folder, &format!("egretfold {line}"));
            assert_eq!(output.status.code(), Some(2), "{line}: {one}, {other}");
            assert_eq!(told(&output), "");
            assert!(!folder.0.join("cards").exists(), "{line}: {one}, {other}");
        }
    }
}

/// A log that is given twice is read twice where that is asked for: nothing is lost by that.
#[test]
fn inputs_may_be_one_file() {
    let folder = folder("twice");
    let twice = shell(
        &folder,
        "egretfold replay y.log ./y.log --csv --repeated-pieces",
    );
    assert_eq!(twice.status.code(), Some(1));
    assert!(
        complained(&twice).contains("refused 19"),
        "{}",
        complained(&twice)
    );
    for line in ["replay /dev/null -o /dev/null", "replay - -o /dev/null"] {
        let mut command = Command::new(env!("CARGO_BIN_EXE_egretfold"));
        command.args(line.split(' '));
        assert_eq!(with_input(command, b"").status.code(), Some(0), "{line}");
    }
}
