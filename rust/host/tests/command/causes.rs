//! Refusals told with their place, their number and both quantities.

use crate::common::{complained, egretfold, told, Folder};
use compare::random::Random;
use compare::{loops, programs, words};
use egretfold::{Edition, Group, Mode, Program, Refusal, Session};
use serde_json::Value;

/// A stream in hex text, and what is told of its refused word.
const TOLD: &[(&str, &str)] = &[
    (
        "C0038000",
        "word 0: refused 2, header C0038000 stands in no line of the command table: the guide's word for set_domain is C0030700",
    ),
    (
        "C0000900 2",
        "word 1: refused 3, the reserved parameter is 00000002, not 0",
    ),
    (
        "C0010A00 1001",
        "word 1: refused 3, base 00001001 has reserved bits 00000001",
    ),
    (
        "C0010A00 1000 5000010",
        "word 2: refused 3, format 05000010 has code 5, over 4",
    ),
    (
        "C0010A00 1000 4000013",
        "word 2: refused 3, format 04000013 has reserved bits 00000003",
    ),
    (
        "C0030B00 0 1000 3020010",
        "word 3: refused 3, superfine on an input of FLOAT32_2, which has 2 channels, not 1",
    ),
    (
        "C0030B00 10",
        "word 1: refused 4, input number 16 is over 15",
    ),
    (
        "C0030C00 4",
        "word 1: refused 4, output number 4 is over 3",
    ),
    (
        "C0030700 9 0 8 0",
        "word 4: refused 5, i0 9 is over i1 8",
    ),
    (
        "C0030700 0 9 0 8",
        "word 4: refused 5, j0 9 is over j1 8",
    ),
    (
        "C0030C00 0 0 201001C 1",
        "word 4: refused 6, window rule: pitch 28 gives row step 0",
    ),
    (
        "C0030C00 0 0 2001010 1",
        "word 4: refused 6, window rule: pitch 4112 gives row step 4112, over 4096",
    ),
    (
        "C0030C00 0 0 2000010 1001",
        "word 4: refused 6, window rule: height 4097 is not 1 to 4096",
    ),
    (
        "C0030C00 0 FFFFF800 2000008 41",
        "word 4: refused 6, window rule: base FFFFF800 plus span 2080 ends at 100000020, over 100000000",
    ),
    (
        "C0030700 0 0 0 0 C0000800 0",
        "word 6: refused 7, start without an instruction format and without any output (0 outputs set)",
    ),
    (
        "C0010A00 0 4000010 C0030C00 2 0 2000010 1 C0030700 0 0 10 0 C0000800 0",
        "word 14: refused 8, the domain's i1 16 is not below output 2's row step 16",
    ),
    (
        "C0010A00 0 4000010 C0030C00 2 0 2000010 1 C0030700 0 0 0 1 C0000800 0",
        "word 14: refused 8, the domain's j1 1 is not below output 2's height 1",
    ),
    (
        "C0010A00 0 4000010 C0030C00 0 0 2010020 1 C0030C00 3 0 2000010 1 C0030700 0 0 0 0 C0000800 0",
        "word 19: refused 9, spans share bytes: output 0 00000000 to 000007FF, output 3 00000000 to 0000003F",
    ),
    // Silent outputs are passed over: output 0 here, of FLOAT32_1, is left channels
    // 1 to 3 alone, which it doesn't have.
    (
        "C0010A00 0 4000010 C0001900 FFFE C0030700 0 0 0 0 C0000800 0",
        "word 11: refused 7, start without any output (0 outputs set)",
    ),
    (
        "C0010A00 0 4000010 C0001900 FFFE C0030C00 0 0 2000010 1 C0030C00 2 800 2000010 1 C0030700 0 0 10 0 C0000800 0",
        "word 21: refused 8, the domain's i1 16 is not below output 2's row step 16",
    ),
    (
        "C0010A00 0 4000010 C0001900 FFFE C0030C00 0 0 2010020 1 C0030C00 1 0 2010020 1 C0030C00 3 0 2000010 1 \
         C0030700 0 0 0 0 C0000800 0",
        "word 26: refused 9, spans share bytes: output 1 00000000 to 000007FF, output 3 00000000 to 0000003F",
    ),
];

#[test]
fn every_refusal_of_a_word_names_both_quantities() {
    for (stream, told) in TOLD {
        let output = egretfold("decode --hex", stream.as_bytes());
        assert_eq!(output.status.code(), Some(1), "{stream}");
        let due = format!("egretfold: standard input: {told}\n");
        assert_eq!(complained(&output), due, "{stream}");
    }
}

/// The table's own words for 3 to 9, which stand where no better cause was found.
const BARE: [&str; 7] = [
    "a reserved bit or code is set, or a layout argument is malformed",
    "input number over 15, output number over 3",
    "i0 > i1 or j0 > j1",
    "window rule broken",
    "start without a domain, an instruction format or any output set",
    "the domain is not inside every set output's window",
    "spans of two set outputs share a byte",
];

/// Whatever is wrong with a stream, the cause is found, and the number is the one
/// that the product gives.
#[test]
fn refused_streams_get_more_than_the_bare_cause() {
    let mut seen = [0; 18];
    for case in 0..3_000 {
        let words = words::any(&mut Random::of_case(91, 3, case));
        let number = match Session::new(Edition::First).feed(&words).refusal {
            Some(refusal) => refusal.number(),
            None => continue,
        };
        let stream: Vec<u8> = words.iter().flat_map(|word| word.to_le_bytes()).collect();
        let told = complained(&egretfold("decode --summary", &stream));
        assert!(told.contains(&format!(": refused {number}, ")), "{told}");
        assert!(
            !BARE.iter().any(|bare| told.trim_end().ends_with(bare)),
            "{told}"
        );
        seen[number as usize] += 1;
    }
    assert!(seen[2..=9].iter().all(|count| *count > 0), "{seen:?}");
}

/// The table's own words for 13 to 16.
const BARE_FLOW: [&str; 4] = [
    "flow word field or group size not allowed",
    "branch counter or return stack at its limit",
    "a jump past the program's end, or a program of 0 or over 512 slots or of an odd number of words",
    "the program has already ended",
];

/// Masks of twelve steps, as arguments and as a run takes them.
fn masks(random: &mut Random) -> (String, Vec<u32>) {
    let list: Vec<u32> = (0..24).map(|_| random.mask()).collect();
    let steps = list
        .chunks(2)
        .map(|pair| format!(" {:X},{:X}", pair[0], pair[1]));
    (steps.collect(), list)
}

/// Whatever a program is refused for, the cause is found, and the number is the
/// one that the product gives to the whole run.
#[test]
fn refused_runs_get_more_than_the_bare_cause() {
    let seen = refused_runs(92, Mode::Full, programs::any);
    assert!(seen[13..=15].iter().all(|count| *count > 0), "{seen:?}");
}

/// The same in partial mode, where a hint stands behind the cause exactly where full
/// mode makes the run.
#[test]
fn refused_runs_in_partial_mode_get_more_than_the_bare_cause() {
    let seen = refused_runs(93, Mode::Partial, |random| match random.below(2) {
        0 => programs::any(random),
        _ => programs::nest(random, 7),
    });
    assert!(seen[13..=15].iter().all(|count| *count > 0), "{seen:?}");
}

fn refused_runs(kind: u64, mode: Mode, any: fn(&mut Random) -> Vec<u32>) -> [u32; 18] {
    let mut seen = [0; 18];
    let folder = Folder::new(&format!("integer-words-{mode:?}"));
    for case in 0..2_000 {
        let mut random = Random::of_case(kind, 4, case);
        let words = any(&mut random);
        let integers = loops::integers(&mut random);
        let (arguments, list) = masks(&mut random);
        let repeated = list.repeat(8);
        let run = |mode, program: &Program| {
            Group::begin_in(8, mode)?.run(program, &repeated, 0xF0F0, &integers)
        };
        let program = Program::load(&words);
        let answer = program.as_ref().map_err(|n| *n);
        let answer = answer.and_then(|program| run(mode, program));
        let full = program.and_then(|program| run(Mode::Full, &program));
        let stream: Vec<u8> = words.iter().flat_map(|word| word.to_le_bytes()).collect();
        let text: String = integers.iter().map(|word| format!("{word:X}\n")).collect();
        let file = folder.write("integers", text.as_bytes());
        let partial = match mode {
            Mode::Full => "",
            Mode::Partial => "--partial ",
        };
        let options = format!("{partial}--booleans F0F0 --integers {file} --repeat 8");
        let line = format!("flow --processors 8 {options} -{arguments}");
        let output = egretfold(&line, &stream);
        let told = complained(&output);
        match answer {
            Ok(_) => assert_eq!((output.status.code(), told.as_str()), (Some(0), "")),
            Err(refusal) => {
                let number = refusal.number();
                assert_eq!(output.status.code(), Some(1), "{told}");
                assert!(told.contains(&format!(": refused {number}, ")), "{told}");
                let cause = told.split("; in full mode").next().unwrap_or_default();
                let is_bare = BARE_FLOW
                    .iter()
                    .any(|bare| cause.trim_end().ends_with(bare));
                assert!(!is_bare, "{told}");
                assert_eq!(cause != told, full.is_ok(), "{told}");
                seen[number as usize] += 1;
            }
        }
    }
    seen
}

/// `explain` has just the refusals that the library has, in their order.
#[test]
fn every_refusal_of_the_library_is_explained() {
    let text = told(&egretfold("explain --json", b""));
    let number = |line| serde_json::from_str::<Value>(line).expect("JSON")["number"].as_u64();
    let explained: Vec<Option<u64>> = text.lines().map(number).collect();
    let known = Refusal::ALL.iter().map(|&refusal| Some(refusal.into()));
    assert_eq!(explained, known.collect::<Vec<Option<u64>>>());
}
