//! Both programs agree on every one of these cases: a million of addresses and
//! hundreds of thousands of each other kind, the same ones at every run. Each
//! test also asks that its cases were a telling mixture, so that a generator
//! that has gone dull is noticed: each refusal came up, and enough was accepted.
//!
//! One test for each kind, and two for the long ones, so that two processors
//! have work.

use compare::commands::{self, HEADERS};
use compare::floats::CLASSES;
use compare::layouts::SHAPES;
use compare::surveys::TESTS;
use compare::tally::Tally;
use compare::{run_cases, Kind};
use std::ops::Range;

const SEED: u64 = 1;

/// Runs the cases and demands that all agree. The failure names its case.
fn agree(kind: Kind, numbers: Range<u64>) -> Tally {
    let wanted = numbers.end - numbers.start;
    let mut tally = Tally::new();
    if let Err(failure) = run_cases(kind, SEED, numbers, &mut tally) {
        panic!("{failure}");
    }
    assert_eq!(tally.cases, wanted);
    println!("{}: {wanted} cases\n{}", kind.name(), tally.describe());
    tally
}

/// Demands that each of these refusals came up at least so often, and no other.
fn refusals(tally: &Tally, expected: &[(u32, u64)]) {
    for (number, least) in expected {
        let seen = tally.refused(*number);
        assert!(seen >= *least, "refusal {number} came {seen} times");
    }
    for number in tally.refusals() {
        let known = expected.iter().any(|line| line.0 == number);
        assert!(known, "refusal {number} can't come up here");
    }
}

fn marks(tally: &Tally, expected: &[(&str, u64)]) {
    for (name, least) in expected {
        let seen = tally.marked(name);
        assert!(seen >= *least, "{name}: {seen}, and should be {least}");
    }
}

/// Demands that starts passed under telling masks, each kind at least so often.
fn masked_starts(tally: &Tally, least: u64) {
    marks(tally, &[("starts with some outputs silent", 4 * least)]);
    marks(tally, &[("starts with all outputs silent", 2 * least)]);
    marks(tally, &[("starts with an output partly masked", 4 * least)]);
    // What would count or be refused if the output weren't silent.
    let lacking = "starts with bits for channels that a silent output lacks";
    let outside = "starts with the domain outside a silent output";
    let over = "starts with a silent output over another output";
    marks(
        tally,
        &[(lacking, 4 * least), (outside, 4 * least), (over, least)],
    );
}

/// Demands that about half of the cases were under each edition, and that numbers of no edition were tried.
fn editions(tally: &Tally, refused: u64) {
    let third = tally.cases / 3;
    marks(
        tally,
        &[
            ("cases under edition 1", third),
            ("cases under edition 2", third),
        ],
    );
    marks(tally, &[("begins refused for their edition", refused)]);
}

fn addresses(numbers: Range<u64>) {
    let tally = agree(Kind::Addresses, numbers);
    let third = tally.cases / 3;
    marks(&tally, &[("pairs accepted", third)]);
    marks(&tally, &[("bytes located back", tally.cases / 2)]);
    for shape in SHAPES.concat() {
        marks(&tally, &[(shape, 10_000)]);
    }
    refusals(
        &tally,
        &[(3, 50_000), (6, 50_000), (10, 50_000), (12, 50_000)],
    );
}

#[test]
fn addresses_first_half() {
    addresses(0..500_000);
}

#[test]
fn addresses_second_half() {
    addresses(500_000..1_000_000);
}

#[test]
fn memory() {
    let tally = agree(Kind::Memory, 0..400_000);
    marks(&tally, &[("reads accepted", 40_000)]);
    marks(&tally, &[("writes accepted", 40_000)]);
    marks(&tally, &[("superfine reads accepted", 40_000)]);
    marks(&tally, &[("memory that is empty", 500)]);
    marks(&tally, &[("memory of 65,536 bytes", 5_000)]);
    marks(&tally, &[("memory over 65,536 bytes", 5_000)]);
    marks(&tally, &[("memory that ends at 2^32", 5_000)]);
    marks(&tally, &[("memory that ends above 2^32", 2_000)]);
    refusals(
        &tally,
        &[(3, 10_000), (6, 10_000), (10, 10_000), (11, 50_000)],
    );
}

fn streams(numbers: Range<u64>) {
    let tally = agree(Kind::Streams, numbers);
    marks(&tally, &[("starts passed", 100_000)]);
    marks(&tally, &[("commands completed", 1_000_000)]);
    marks(&tally, &[("streams accepted", 30_000)]);
    marks(&tally, &[("streams refused", 30_000)]);
    marks(&tally, &[("questions refused", 50_000)]);
    let above = "streams that claim 2^32 elements or more";
    marks(&tally, &[(above, 300)]);
    marks(&tally, &[("starts that would pass", 1_000_000)]);
    marks(&tally, &[("starts that would get 7", 500_000)]);
    marks(&tally, &[("starts that would get 8", 100_000)]);
    marks(&tally, &[("starts that would get 9", 50_000)]);
    masked_starts(&tally, 6_000);
    editions(&tally, tally.cases);
    let apart = "streams whose claims the editions tell apart";
    let most = "streams that claim four times as much under edition 2";
    marks(&tally, &[(apart, 10_000), (most, 1_000)]);
    for header in HEADERS {
        marks(&tally, &[(commands::name(header), 5_000)]);
    }
    let words_at_fault = [(2, 10_000), (3, 10_000), (4, 1_000)];
    let last_parameters = [(5, 500), (6, 500), (7, 1_000), (8, 1_000), (9, 1_000)];
    let mut expected = vec![(1, 100_000)];
    expected.extend(words_at_fault);
    expected.extend(last_parameters);
    refusals(&tally, &expected);
}

#[test]
fn streams_first_half() {
    streams(0..100_000);
}

#[test]
fn streams_second_half() {
    streams(100_000..200_000);
}

#[test]
fn writer() {
    let tally = agree(Kind::Writer, 0..1_000_000);
    assert!(tally.accepted >= 1_000_000, "accepted: {}", tally.accepted);
    for header in HEADERS {
        marks(&tally, &[(commands::name(header), 5_000)]);
    }
    let fields = [(3, 100_000), (4, 5_000), (5, 2_000), (6, 10_000)];
    let mut expected = vec![(2, 50_000), (11, 100_000)];
    expected.extend(fields);
    refusals(&tally, &expected);
}

fn flow(numbers: Range<u64>) {
    let tally = agree(Kind::Flow, numbers);
    marks(&tally, &[("steps compared", 500_000)]);
    marks(&tally, &[("runs compared", 300_000)]);
    marks(&tally, &[("jumps", 100_000), ("stays", 100_000)]);
    marks(&tally, &[("steps that left nobody active", 20_000)]);
    marks(&tally, &[("steps that left some waiting", 100_000)]);
    marks(&tally, &[("steps that left two returns or more", 10_000)]);
    marks(
        &tally,
        &[("steps refused with a counter at its limit", 1_000)],
    );
    marks(&tally, &[("steps refused for the return stack", 5_000)]);
    marks(&tally, &[("steps refused for their jump", 5_000)]);
    marks(&tally, &[("steps refused for their words", 5_000)]);
    loops(&tally);
    refusals(
        &tally,
        &[(13, 20_000), (14, 20_000), (15, 8_000), (16, 50_000)],
    );
}

/// Demands that loops were opened, turned, closed and refused in every way.
fn loops(tally: &Tally) {
    let looped = "programs stepped through a loop's slot";
    marks(tally, &[(looped, 150_000)]);
    marks(
        tally,
        &[("LOOPs opened", 100_000), ("REPs opened", 100_000)],
    );
    marks(tally, &[("turns of a LOOP", 50_000)]);
    marks(tally, &[("turns of a REP", 50_000)]);
    marks(tally, &[("LOOPs closed", 30_000), ("REPs closed", 30_000)]);
    marks(tally, &[("jumps with a loop open", 50_000)]);
    marks(tally, &[("steps that left four loops open", 20_000)]);
    let through = "steps that show a LOOP's aL inside a REP";
    marks(tally, &[(through, 50_000)]);
    marks(tally, &[("loops' decisions against the wishes", 100_000)]);
    marks(tally, &[("loops' steps with nobody active", 20_000)]);
    marks(tally, &[("loops' steps that set some waiting", 20_000)]);
    marks(tally, &[("loops' steps with a push or a pop", 5_000)]);
    let at_four = "openings of count 0 with four loops open";
    marks(tally, &[("openings of count 0", 20_000), (at_four, 500)]);
    // 13: the op, the number where none is named, the word.
    let unnamed = "steps refused for an integer number that isn't named";
    marks(tally, &[("steps refused for an op over 4", 5_000)]);
    marks(tally, &[(unnamed, 2_000)]);
    let before_14 = "openings without an integer word with four loops open";
    marks(tally, &[("openings without an integer word", 20_000)]);
    marks(tally, &[(before_14, 50)]);
    let word = "openings refused for their integer word";
    marks(tally, &[(word, 10_000)]);
    // 14: a fifth loop, closes, aL; and what isn't the loop's.
    marks(tally, &[("openings of a fifth loop", 10_000)]);
    marks(tally, &[("closes with no loop open", 10_000)]);
    marks(tally, &[("closes of the other kind", 10_000)]);
    marks(tally, &[("closes with aL below 0", 2_000)]);
    marks(tally, &[("closes with aL above 255", 2_000)]);
    let beside = "loops' steps refused for branch or return work";
    marks(tally, &[(beside, 2_000)]);
    marks(tally, &[("loops' jumps past the end", 500)]);
}

#[test]
fn flow_first_half() {
    flow(0..320_000);
}

#[test]
fn flow_second_half() {
    flow(320_000..640_000);
}

#[test]
fn modes() {
    let tally = agree(Kind::Modes, 0..200_000);
    marks(&tally, &[("steps in both modes", 300_000)]);
    marks(&tally, &[("runs in both modes", 150_000)]);
    marks(&tally, &[("runs that both modes accepted", 20_000)]);
    marks(&tally, &[("runs that full mode alone accepted", 5_000)]);
    let at_five = "steps of partial mode that left a counter at 5";
    marks(&tally, &[(at_five, 1_000)]);
    // The three causes, each by itself.
    let op = "steps refused in partial mode for their op";
    let a_op = "steps refused in partial mode for their A_OP";
    let counter = "steps refused in partial mode for a counter at 5";
    marks(&tally, &[(op, 5_000), (a_op, 500), (counter, 1_000)]);
    let other = "steps refused by both modes with other numbers";
    marks(&tally, &[(other, 500)]);
    for depth in 4..=7 {
        let through = format!("nests {depth} deep, through in both modes");
        marks(&tally, &[(&through, 1_000)]);
    }
    // Six branches are the most: the sixth to be entered after a processor left.
    for depth in [4, 5, 6] {
        let refused = format!("nests {depth} deep, refused in partial mode alone");
        assert_eq!(tally.marked(&refused), 0, "{refused}");
    }
    marks(
        &tally,
        &[("nests 7 deep, refused in partial mode alone", 1_000)],
    );
    refusals(
        &tally,
        &[(13, 200_000), (14, 2_000), (15, 500), (16, 10_000)],
    );
}

fn kills(numbers: Range<u64>) {
    let tally = agree(Kind::Kills, numbers);
    marks(&tally, &[("kills compared", 350_000)]);
    marks(&tally, &[("kills that killed nobody", 100_000)]);
    marks(&tally, &[("kills that killed some", 50_000)]);
    marks(&tally, &[("kills that killed the whole group", 2_000)]);
    marks(&tally, &[("kills that left only idle ones", 1_000)]);
    marks(&tally, &[("kills that spared an idle one", 20_000)]);
    let living = "kills refused for the living group's length";
    marks(&tally, &[(living, 2_000)]);
    let (ended, mask) = (
        "kills with two causes, of which 16 is first",
        "kills with two causes, of which 13 is first",
    );
    marks(&tally, &[(ended, 2_000), (mask, 2_000)]);
    marks(&tally, &[("groups in partial mode", 50_000)]);
    marks(&tally, &[("steps after a kill", 300_000)]);
    marks(&tally, &[("runs compared", 300_000)]);
    marks(&tally, &[("registers compared", tally.cases)]);
    for class in CLASSES {
        marks(&tally, &[(class, 100_000)]);
    }
    refusals(
        &tally,
        &[
            (11, 10_000),
            (13, 50_000),
            (14, 10_000),
            (15, 10_000),
            (16, 50_000),
        ],
    );
}

#[test]
fn kills_first_half() {
    kills(0..200_000);
}

#[test]
fn kills_second_half() {
    kills(200_000..400_000);
}

#[test]
fn fleets() {
    let tally = agree(Kind::Fleets, 0..60_000);
    editions(&tally, 0);
    assert!(tally.accepted >= 30_000, "accepted: {}", tally.accepted);
    marks(&tally, &[("empty fleets", 3_000)]);
    marks(&tally, &[("fleets of 64 stations", 200)]);
    marks(&tally, &[("fleets that owe nothing", 500)]);
    marks(&tally, &[("fleets with silent days", 20_000)]);
    marks(
        &tally,
        &[("fleets with a tie for the smallest part", 10_000)],
    );
    marks(&tally, &[("fleets with parts to compare", 1_000)]);
    marks(
        &tally,
        &[("fleets that name a station but the first", 10_000)],
    );
    marks(&tally, &[("products of 2^63 or more", 300)]);
    marks(&tally, &[("fleets joined of two", 30_000)]);
    marks(&tally, &[("fleets by their lease lines", 30_000)]);
    let slices = [(3, 10_000), (11, 30_000), (22, 1_000)];
    let stations = [(18, 4_000), (19, 4_000), (21, 4_000)];
    refusals(&tally, &[slices, stations].concat());
}

#[test]
fn growing() {
    let tally = agree(Kind::Growing, 0..10_000);
    editions(&tally, 0);
    assert!(tally.accepted >= 100_000, "accepted: {}", tally.accepted);
    marks(&tally, &[("reports joined of groups", 5_000)]);
    marks(&tally, &[("reports of more than 64 stations", 400)]);
    marks(&tally, &[("reports that name station 64", 15)]);
    marks(
        &tally,
        &[("reports that name station 64 or a later one", 150)],
    );
    marks(
        &tally,
        &[("reports of more than 64 stations that owe nothing", 50)],
    );
    marks(&tally, &[("reports of 2^32 stations", 300)]);
    marks(&tally, &[("reports that request 14's tells too", 1_500)]);
    let stations = [(18, 1_500), (19, 1_500), (21, 5_000)];
    refusals(
        &tally,
        &[&[(3, 5_000), (22, 2_000)][..], &stations].concat(),
    );
}

fn lessees(numbers: Range<u64>) {
    let tally = agree(Kind::Lessees, numbers);
    editions(&tally, 0);
    // For each case, of both parties, with the other's words replaced.
    marks(&tally, &[("views that stayed the same", 2 * tally.cases)]);
    let changed = "views that stayed while the other's changed";
    marks(&tally, &[(changed, 90_000)]);
    marks(&tally, &[("begins refused", tally.cases)]);
    marks(&tally, &[("pieces refused for their groups", tally.cases)]);
    marks(&tally, &[("pieces of both parties", 1_000_000)]);
    marks(&tally, &[("pieces of one party alone", 1_000_000)]);
    marks(&tally, &[("sessions of one party that owns all", 10_000)]);
    marks(&tally, &[("starts of party 0", 100_000)]);
    marks(&tally, &[("starts of party 1", 100_000)]);
    marks(&tally, &[("starts beside a stopped party", 100_000)]);
    marks(&tally, &[("words taken beside a stopped party", 1_000_000)]);
    let shared = "starts with two outputs that share a byte";
    marks(&tally, &[(shared, 30_000)]);
    // 20 in each of its ways, and what comes before it.
    marks(&tally, &[("headers of party 0's by party 1", 1_000)]);
    marks(&tally, &[("inputs of party 0's by party 1", 300)]);
    marks(&tally, &[("inputs of party 1's by party 0", 300)]);
    marks(&tally, &[("outputs of party 0's by party 1", 3_000)]);
    marks(&tally, &[("outputs of party 1's by party 0", 3_000)]);
    marks(&tally, &[("numbers that nobody has", 2_000)]);
    marks(&tally, &[("masks that leave another's bits", 30_000)]);
    let both_ways = "masks that leave another's bits and change one's own";
    marks(&tally, &[(both_ways, 30_000)]);
    let words_at_fault = [(2, 10_000), (3, 10_000), (4, 2_000), (20, 10_000)];
    let last_parameters = [(5, 500), (6, 500), (7, 1_000), (8, 5_000), (9, 500)];
    let mut expected = vec![(1, 1_000_000)];
    expected.extend(words_at_fault);
    expected.extend(last_parameters);
    refusals(&tally, &expected);
}

#[test]
fn lessees_first_half() {
    lessees(0..50_000);
}

#[test]
fn lessees_second_half() {
    lessees(50_000..100_000);
}

#[test]
fn surveys() {
    let tally = agree(Kind::Surveys, 0..100_000);
    marks(&tally, &[("pairs surveyed", 1_000_000)]);
    for test in TESTS {
        marks(&tally, &[(test, 3_000)]);
    }
    for buffer in ["surveys of linear buffers", "surveys of tiled buffers"] {
        marks(&tally, &[(buffer, 10_000)]);
    }
    marks(&tally, &[("surveys of stopped sessions", 10_000)]);
    marks(&tally, &[("surveys inside an open command", 3_000)]);
    marks(&tally, &[("surveys of more than 4,096 pairs", 50)]);
    let mixed = "surveys that some pairs pass and some don't";
    marks(&tally, &[(mixed, 10_000)]);
    let bytes = "single tests that are a survey's bytes";
    marks(&tally, &[(bytes, 50_000)]);
    let tests = ["single tests that pass", "single tests that don't"];
    marks(&tally, &tests.map(|name| (name, 50_000)));
    for two in [
        "surveys with two causes, of which 7 is first",
        "surveys with two causes, of which 3 is first",
        "surveys with two causes, of which 5 is first",
        "surveys with two causes, of which 10 is first",
    ] {
        marks(&tally, &[(two, 2_000)]);
    }
    refusals(
        &tally,
        &[
            (3, 20_000),
            (5, 5_000),
            (7, 50_000),
            (10, 30_000),
            (11, 50_000),
        ],
    );
}

#[test]
fn pictures() {
    let tally = agree(Kind::Pictures, 0..100_000);
    let calls = ["paints accepted", "copies accepted", "rows accepted"];
    marks(&tally, &calls.map(|name| (name, 30_000)));
    for shape in SHAPES.concat() {
        marks(&tally, &[(shape, 4_000)]);
    }
    for (kind, least) in [
        ("rectangles without pairs", 3_000),
        ("whole windows", 5_000),
        ("rectangles with whole tile rows", 10_000),
        ("rectangles with ragged edges", 20_000),
        ("rectangles with both", 2_000),
        ("pictures painted in another order", 5_000),
        ("memory that just covers the span", 20_000),
        ("memory over 65,536 bytes, accepted", 1_000),
        ("memory that ends at 2^32, accepted", 2_000),
        ("pictures refused for their room alone", 5_000),
        ("pictures refused for the memory's front alone", 5_000),
        ("pictures refused for the memory's end alone", 5_000),
        ("pictures refused for memory above 2^32", 1_000),
        ("pictures refused for memory and room", 2_000),
        ("pictures with two causes, of which 3 is first", 500),
        ("pictures with two causes, of which 6 is first", 200),
        ("pictures with two causes, of which 10 is first", 5_000),
    ] {
        marks(&tally, &[(kind, least)]);
    }
    refusals(
        &tally,
        &[(3, 5_000), (6, 2_000), (10, 20_000), (11, 30_000)],
    );
}

fn logs(numbers: Range<u64>) {
    let tally = agree(Kind::Logs, numbers);
    marks(&tally, &[("bytes", 20_000_000), ("midnights", 500_000)]);
    marks(&tally, &[("unfinished records", 2_000)]);
    marks(&tally, &[("later bytes refused", 20_000)]);
    marks(&tally, &[("bytes by themselves", 500_000)]);
    marks(&tally, &[("logs with 400 midnights", 500)]);
    marks(&tally, &[("logs up to the last day's number", 2_000)]);
    marks(
        &tally,
        &[("logs with runs before the first midnight", 4_000)],
    );
    marks(&tally, &[("logs with runs on several days", 4_000)]);
    let above = "logs with a day of 2^32 elements or more";
    let in_a_row = "logs with more words in a row than are gathered";
    marks(&tally, &[(above, 20), (in_a_row, 2_000)]);
    masked_starts(&tally, 2_000);
    editions(&tally, tally.cases);
    // Of words the first refusal counts, which is never 1.
    let words_at_fault = [(2, 4_000), (3, 6_000), (4, 1_000)];
    let last_parameters = [(5, 300), (6, 200), (7, 300), (8, 1_500), (9, 800)];
    let mut expected = vec![(18, 3_000), (19, 6_000)];
    expected.extend(words_at_fault);
    expected.extend(last_parameters);
    refusals(&tally, &expected);
}

#[test]
fn logs_first_half() {
    logs(0..50_000);
}

#[test]
fn logs_second_half() {
    logs(50_000..100_000);
}

#[test]
fn scores() {
    let tally = agree(Kind::Scores, 0..40_000);
    editions(&tally, 0);
    marks(&tally, &[("scores refused for their edition", 320_000)]);
    let verdicts = [("full months", 10_000), ("short months", 50_000)];
    marks(&tally, &verdicts);
    marks(&tally, &[("months that owe nothing", 20_000)]);
    marks(&tally, &[("full months of several days", 1_000)]);
    marks(&tally, &[("short months that a surplus would fill", 2_000)]);
    for lie in [
        "leases before the log's days",
        "leases across the log's first day",
        "leases inside the log's days",
        "leases across the log's last day",
        "leases around the log's days",
        "leases behind the log's days",
    ] {
        marks(&tally, &[(lie, 2_000)]);
    }
    for bound in [
        "lease lines of 1 day",
        "lease lines of 31 days",
        "lease lines of 0 days",
        "lease lines of 32 days",
        "lease lines that owe 100,000,000",
        "lease lines that owe 100,000,001",
        "lease lines up to the last day's number",
        "lease lines one day past the last number",
    ] {
        marks(&tally, &[(bound, 5_000)]);
    }
    let above = "months with a day of 2^32 elements or more";
    marks(&tally, &[(above, 50)]);
    let before = "leases with the day before the first midnight, which has claims";
    marks(&tally, &[(before, 1_000)]);
    marks(&tally, &[("scores of logs with a refused word", 3_000)]);
    marks(
        &tally,
        &[("scores of logs with an unfinished record", 5_000)],
    );
    marks(
        &tally,
        &[("lease lines refused before a stopped log", 10_000)],
    );
    refusals(&tally, &[(18, 10_000), (19, 20_000), (21, 40_000)]);
}

#[test]
fn states() {
    let tally = agree(Kind::States, 0..10_000);
    marks(&tally, &[("sessions", 1_000), ("pairs", 1_000)]);
    marks(&tally, &[("groups", 2_000), ("replays", 4_500)]);
    marks(&tally, &[("states that came back", 500_000)]);
    marks(&tally, &[("damaged states refused", 50_000)]);
    marks(&tally, &[("damaged states that are others", 4_000)]);
    marks(&tally, &[("replays kept inside a record", 300)]);
    marks(&tally, &[("replays kept stopped", 1_000)]);
    marks(&tally, &[("replays kept with a refused word", 1_000)]);
}

#[test]
fn trims() {
    let tally = agree(Kind::Trims, 0..10_000);
    editions(&tally, 0);
    assert!(tally.accepted >= 5_000, "accepted: {}", tally.accepted);
    marks(&tally, &[("trims", 300_000)]);
    marks(&tally, &[("trims inside a command", 100_000)]);
    marks(&tally, &[("trims inside a record", 100_000)]);
    marks(&tally, &[("midnights forgotten", 500_000)]);
    marks(&tally, &[("logs of more than 400 midnights", 500)]);
    marks(&tally, &[("logs stopped at their 401st midnight", 20)]);
    marks(&tally, &[("leases scored", 20_000)]);
    marks(&tally, &[("leases served from the kept day on", 1_500)]);
    let words = [(2, 1_000), (3, 1_500), (4, 200), (5, 50), (6, 50)];
    let starts = [(7, 100), (8, 300), (9, 100)];
    let stops = [(18, 800), (19, 1_500)];
    refusals(&tally, &[&words[..], &starts, &stops].concat());
}
