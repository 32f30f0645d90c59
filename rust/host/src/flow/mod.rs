//! `egretfold flow`: a program listed, or stepped with given masks, a row a step.

mod kills;
mod loops;
mod slots;
mod steps;

use crate::common::failure::{Failure, Outcome};
use crate::common::files::Files;
use crate::common::kinds::{SlotNumber, Word};
use crate::common::schema;
use crate::common::text;
use crate::explain::cause::{self, Refused};
use crate::flow::kills::Kill;
use crate::flow::slots::Slot;
use crate::flow::steps::Row;
use crate::input::lines::Lines;
use crate::input::numbers;
use crate::input::source::{self, Source};
use crate::input::words::Words;
use clap::Args;
use egretfold::{Group, Mode, Program, Report};
use serde_json::json;
use std::io::Write;
use std::path::PathBuf;

/// Printed behind the help text.
pub const EXAMPLES: &str = "\
Examples, from the repository's root:
  egretfold flow --hex samples/branch.hex
  egretfold flow --hex samples/branch.hex --processors 8 --masks samples/branch.masks
  egretfold flow --hex samples/branch.hex --processors 8 0,0 --repeat 20
  egretfold flow --hex samples/loops.hex --integers samples/loops.integers --processors 4 --masks samples/loops.masks
  egretfold flow --partial --hex samples/nest.hex --processors 8 0,0 --repeat 15
  egretfold flow --hex samples/kill.hex --processors 8 --masks samples/kill.masks --kill 1:F:samples/kill.registers";

#[derive(Args)]
pub struct Options {
    /// The program, two words a slot, little-endian; - for standard input
    file: Option<PathBuf>,
    /// A step's masks, hex; without any the program is listed
    #[arg(value_name = "ALU,PREDICATE", value_parser = masks)]
    masks: Vec<(u32, u32)>,
    /// Reads the masks from a file, a step a line
    #[arg(long = "masks", value_name = "FILE", conflicts_with = "masks")]
    list: Option<PathBuf>,
    /// Goes through the masks this many times
    #[arg(long, value_name = "N", default_value = "1", value_parser = numbers::count)]
    repeat: u32,
    /// Processors in the group, 1 to 32
    #[arg(long, value_name = "N", default_value = "32", value_parser = numbers::count)]
    processors: u32,
    /// The 32 booleans, hex
    #[arg(long, value_name = "WORD", default_value = "0", value_parser = numbers::word)]
    booleans: u32,
    /// The integer words that LOOP and REP take, hex text, from number 0 on
    #[arg(long, value_name = "FILE")]
    integers: Option<PathBuf>,
    /// Partial mode: no loops, no pops and pushes, branch counters up to 5
    #[arg(long)]
    partial: bool,
    /// Kills before step STEP, from 0 on, under a write mask, hex; registers a line each
    #[arg(long = "kill", value_name = "STEP:MASK:FILE", value_parser = kills::asked)]
    kills: Vec<kills::Asked>,
    /// The program is hex text
    #[arg(long)]
    hex: bool,
    /// One JSON object a row and for the run, a line each
    #[arg(long)]
    json: bool,
}

impl Options {
    /// Names the files of the line.
    pub fn name(&self, files: &mut Files) {
        files.reads_all("FILE", &self.file);
        files.reads("--masks", self.list.as_deref());
        files.reads("--integers", self.integers.as_deref());
        for kill in &self.kills {
            files.reads("--kill", Some(&kill.file));
        }
    }

    fn mode(&self) -> Mode {
        if self.partial {
            Mode::Partial
        } else {
            Mode::Full
        }
    }
}

/// A run takes its masks as one list, which is kept in memory.
const MOST_STEPS: usize = 1_000_000;

/// A program of more words than 1,024 gets 15, so there is no need to read all of
/// a long file to know it.
const MOST_WORDS: u64 = 1026;

fn masks(text: &str) -> Result<(u32, u32), String> {
    let parts = numbers::two(text);
    let (alu, predicate) = parts.ok_or_else(|| format!("{text:?} is no ALU,PREDICATE"))?;
    Ok((numbers::word(alu)?, numbers::word(predicate)?))
}

pub fn run(options: &Options, out: &mut dyn Write) -> Outcome {
    let inputs = [&options.list, &options.integers];
    let of_kills = options.kills.iter().map(|kill| kill.file.as_path());
    let named = inputs
        .iter()
        .filter_map(|file| file.as_deref())
        .chain(of_kills);
    let more = named.filter(|file| source::is_standard(Some(file))).count();
    if more + usize::from(source::is_standard(options.file.as_deref())) > 1 {
        return Err(Failure::wrong(
            "only one of program, masks, integer words and registers can be on standard input",
        ));
    }
    let (name, program) = load(options)?;
    let masks = all_masks(options)?;
    let lists = Lists {
        kills: kills::all(&options.kills, masks.len())?,
        masks,
        integers: all_integers(options)?,
    };
    // Also where it isn't stepped, so that a group is refused or not, whatever is asked.
    let size = options.processors;
    let group = Group::begin_in(size, options.mode()).map_err(|number| {
        let refused = cause::refused(number, Some("a group has 1 to 32 processors".into()));
        Failure::Refused(format!("--processors {size}: {refused}"))
    })?;
    if lists.masks.is_empty() && lists.kills.is_empty() {
        return steps::list(&program, &lists.integers, options.mode(), options.json, out);
    }
    if !options.json {
        let slots = text::count(u64::from(program.slots()), "slot");
        let group_words = text::count(u64::from(size), "processor");
        let booleans = Word(options.booleans);
        let mode = if options.partial {
            ", partial mode"
        } else {
            ""
        };
        writeln!(
            out,
            "{name}: {slots}, {group_words}, booleans {booleans}{mode}"
        )?;
        for line in steps::head(&group, steps::has_loops(&program), !lists.kills.is_empty()) {
            writeln!(out, "{line}")?;
        }
    }
    let stepped = step_all(options, &program, group, &lists, out)?;
    report(options, &name, &program, group, &lists, stepped, out)
}

/// What a group is stepped with: two masks a step, integer words for all, and the
/// kills between the steps.
struct Lists {
    masks: Vec<(u32, u32)>,
    integers: Vec<u32>,
    kills: Vec<Kill>,
}

fn load(options: &Options) -> Outcome<(String, Program)> {
    let source = Source::open(options.file.as_deref())?;
    let name = source.name.clone();
    let mut input = Words::new(source, options.hex).first(MOST_WORDS);
    let words = match input.all() {
        Ok(words) => words,
        Err(failure) => return Err(failure.hinted(input.hint())),
    };
    let program = Program::load(&words).map_err(|number| {
        let more = if words.len() as u64 == MOST_WORDS {
            " or more"
        } else {
            ""
        };
        let count = words.len();
        let cause = format!("{count}{more} words are no program, which has 2 to 1024, two a slot");
        let told = format!("{name}: {}", cause::refused(number, Some(cause)));
        Failure::Refused(told).hinted(input.hint())
    })?;
    Ok((name, program))
}

fn all_masks(options: &Options) -> Outcome<Vec<(u32, u32)>> {
    let mut once = options.masks.clone();
    few_enough(&once, options)?;
    if let Some(file) = &options.list {
        let mut lines = Lines::new(Source::open(Some(file))?);
        while let Some(line) = lines.next()? {
            if !line.is_empty() {
                once.push(masks(&line).map_err(|text| lines.wrong(&text))?);
                few_enough(&once, options)?;
            }
        }
    }
    match options.repeat {
        0 => Err(Failure::wrong("--repeat 0: no step would be made")),
        _ if once.is_empty() && options.repeat > 1 => {
            Err(Failure::wrong("--repeat: there are no masks to go through"))
        }
        times => Ok(once.repeat(times as usize)),
    }
}

/// Asked while they are read, so that a list without an end is not kept.
fn few_enough(once: &[(u32, u32)], options: &Options) -> Outcome {
    let steps = once.len().saturating_mul(options.repeat as usize);
    if steps > MOST_STEPS {
        Err(Failure::Wrong(format!(
            "masks for over {MOST_STEPS} steps, which are the most"
        )))
    } else {
        Ok(())
    }
}

/// The integer words, as many as slots can name.
fn all_integers(options: &Options) -> Outcome<Vec<u32>> {
    match &options.integers {
        None => Ok(Vec::new()),
        Some(file) => {
            let source = Source::open(Some(file))?;
            Words::new(source, true).first(loops::INTEGERS).all()
        }
    }
}

/// A step that was refused, or a kill before it.
struct RefusedStep {
    /// "kill: " or nothing.
    call: &'static str,
    step: usize,
    number: SlotNumber,
    refused: Refused,
}

/// Steps a copy of the group, a row a step and a kill, up to the masks' or the
/// program's end, and answers where that ended. A kill that an ended program leaves
/// over is asked too, and refused.
fn step_all(
    options: &Options,
    program: &Program,
    mut group: Group,
    lists: &Lists,
    out: &mut dyn Write,
) -> Outcome<Result<Group, RefusedStep>> {
    let Lists {
        masks,
        integers,
        kills,
    } = lists;
    let mut kills = kills.iter().peekable();
    let looping = steps::has_loops(program);
    for (step, (alu, predicate)) in masks.iter().copied().enumerate() {
        while let Some(kill) = kills.next_if(|kill| kill.step == step) {
            if let Err(refused) = kill_row(options, program, &mut group, kill, out)? {
                return Ok(Err(refused));
            }
        }
        if group.position() >= program.slots() {
            break;
        }
        let number = SlotNumber(group.position());
        let stepped = match group.step(program, alu, predicate, options.booleans, integers) {
            Ok(stepped) => stepped,
            Err(refusal) => {
                let cause = slots::cause(refusal, program, &group, integers);
                let refused = cause::refused(refusal, cause);
                return Ok(Err(RefusedStep {
                    call: "",
                    step,
                    number,
                    refused,
                }));
            }
        };
        let row = Row {
            step,
            number,
            slot: Slot::of(program, number, integers),
            alu,
            predicate,
            stepped,
            group: &group,
            looping,
        };
        if options.json {
            schema::line(out, row.json())?;
        } else {
            writeln!(out, "{}", row.text())?;
        }
    }
    for kill in kills {
        if let Err(refused) = kill_row(options, program, &mut group, kill, out)? {
            return Ok(Err(refused));
        }
    }
    Ok(Ok(group))
}

/// One kill, and its row where it is made.
fn kill_row(
    options: &Options,
    program: &Program,
    group: &mut Group,
    kill: &Kill,
    out: &mut dyn Write,
) -> Outcome<Result<(), RefusedStep>> {
    let number = SlotNumber(group.position());
    match kill.make(program, group) {
        Ok(killed) => {
            if options.json {
                schema::line(out, kill.json(number, killed, group))?;
            } else {
                writeln!(out, "{}", kill.text(number, killed, group))?;
            }
            Ok(Ok(()))
        }
        Err(refusal) => Ok(Err(RefusedStep {
            call: "kill: ",
            step: kill.step,
            number,
            refused: kill.refused(refusal, program, group),
        })),
    }
}

/// The same by runs: one for the steps up to each kill, then the kill, and a last
/// one. The report's steps are those of all runs.
fn ran(
    options: &Options,
    program: &Program,
    group: &mut Group,
    lists: &Lists,
) -> Result<Report, u32> {
    let list: Vec<u32> = lists.masks.iter().flat_map(|(a, p)| [*a, *p]).collect();
    let mut steps = 0;
    let mut from = 0;
    for kill in &lists.kills {
        let masks = &list[from..2 * kill.step];
        // Between two kills before one step, and before step 0, there is no run.
        if !masks.is_empty() {
            steps += group
                .run(program, masks, options.booleans, &lists.integers)?
                .steps;
        }
        kill.make(program, group)?;
        from = 2 * kill.step;
    }
    let last = group.run(program, &list[from..], options.booleans, &lists.integers)?;
    let steps = steps + last.steps;
    Ok(Report { steps, ..last })
}

/// The run's own report, from the fresh group over the whole list. It must end as
/// the steps did.
fn report(
    options: &Options,
    name: &str,
    program: &Program,
    mut group: Group,
    lists: &Lists,
    stepped: Result<Group, RefusedStep>,
    out: &mut dyn Write,
) -> Outcome {
    match (ran(options, program, &mut group, lists), stepped) {
        (Ok(report), Ok(by_steps)) if by_steps == group => {
            show_report(options, program, &group, report, out)
        }
        (Err(number), Err(step)) if number == step.refused.number => {
            let in_full = in_full_mode(options, program, lists);
            show_refused(options, name, &step, in_full, out)
        }
        _ => Err(Failure::wrong(
            "the run and its steps differ: this is a fault of the program",
        )),
    }
}

/// How many steps the run makes in full mode, where partial mode refused it and full
/// mode doesn't.
fn in_full_mode(options: &Options, program: &Program, lists: &Lists) -> Option<u64> {
    if !options.partial {
        return None;
    }
    let mut group = Group::begin(options.processors).ok()?;
    let ran = ran(options, program, &mut group, lists);
    ran.ok().map(|report| report.steps)
}

fn show_report(
    options: &Options,
    program: &Program,
    group: &Group,
    report: Report,
    out: &mut dyn Write,
) -> Outcome {
    let ended = group.position() >= program.slots();
    let (first, active) = (report.first, report.active);
    if options.json {
        let mut value = json!({ "steps": report.steps });
        value["first_active"] = json!(first);
        value["active"] = json!(active);
        value["killed"] = json!(Word(group.killed()).to_string());
        value["ended"] = json!(ended);
        schema::line(out, json!({ "run": value }))?;
        return Ok(());
    }
    let what = if ended { "program has" } else { "masks have" };
    let steps = text::count(report.steps, "step");
    let first = match first {
        32 => "none".to_string(),
        processor => processor.to_string(),
    };
    let killed = match group.killed().count_ones() {
        0 => String::new(),
        killed => format!(", {killed} killed"),
    };
    writeln!(
        out,
        "run: {steps}, first active processor {first}, {active} active{killed}; the {what} ended"
    )?;
    Ok(())
}

fn show_refused(
    options: &Options,
    name: &str,
    step: &RefusedStep,
    in_full: Option<u64>,
    out: &mut dyn Write,
) -> Outcome {
    let RefusedStep {
        call,
        step,
        number,
        refused,
    } = step;
    let is_kill = !call.is_empty();
    let hint = in_full.map(|steps| {
        let steps = text::count(steps, "step");
        format!("in full mode, without --partial, the run makes {steps}")
    });
    if options.json {
        let mut value = json!({"step": step, "slot": number.0});
        if is_kill {
            value["kill"] = json!(true);
        }
        value["refused"] = json!(refused.number);
        value["cause"] = json!(refused.cause);
        if let Some(steps) = in_full {
            value["steps_in_full_mode"] = json!(steps);
        }
        schema::line(out, json!({ "run": value }))?;
    } else {
        writeln!(out, "{step:>4}  {number:>4}  {call}{refused}")?;
        let number = refused.number;
        let what = if is_kill { "kill" } else { "run" };
        writeln!(
            out,
            "{what}: refused {number}; the group is as before the {what}"
        )?;
        if let Some(hint) = &hint {
            writeln!(out, "hint: {hint}")?;
        }
    }
    let hint = hint.map_or(String::new(), |hint| format!("; {hint}"));
    let told = format!("{name}: step {step}, slot {number}: {call}{refused}{hint}");
    Err(Failure::Refused(told))
}
