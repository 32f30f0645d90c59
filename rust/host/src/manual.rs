//! `egretfold manual`: the manual page, by the command line's own description, so
//! that the two can't differ.

use crate::common::failure::Outcome;
use clap::{Arg, Args, Command};
use roff::{bold, roman, Roff};
use std::io::Write;

/// Printed behind the help text.
pub const EXAMPLES: &str = "\
Examples:
  egretfold manual >egretfold.1
  man ./egretfold.1";

#[derive(Args)]
pub struct Options {}

pub fn run(mut line: Command, out: &mut dyn Write) -> Outcome {
    line.build();
    let about = line.get_about().map(ToString::to_string);
    let about = about.unwrap_or_default();
    let version = format!("egretfold {}", line.get_version().unwrap_or_default());
    let mut page = Roff::new();
    // Two quotation marks: there is no date.
    page.control("TH", ["EGRETFOLD", "1", "\"\"", &version]);
    page.control("SH", ["NAME"]);
    page.text([roman(format!("egretfold - {about}"))]);
    page.control("SH", ["SYNOPSIS"]);
    page.text([roman(usage(&line))]);
    page.control("SH", ["OPTIONS"]);
    arguments(&mut page, &line, true);
    page.control("SH", ["COMMANDS"]);
    for command in shown(&line) {
        describe(&mut page, command);
    }
    page.control("SH", ["NOTES"]);
    after(&mut page, &line);
    page.to_writer(out)?;
    Ok(())
}

/// The subcommands but `help`, which says nothing that isn't here.
fn shown(line: &Command) -> impl Iterator<Item = &Command> {
    line.get_subcommands()
        .filter(|command| command.get_name() != "help")
}

fn usage(line: &Command) -> String {
    let text = line.clone().render_usage().to_string();
    text.trim_start_matches("Usage: ").to_string()
}

fn describe(page: &mut Roff, command: &Command) {
    page.control("SS", [command.get_name()]);
    if let Some(about) = command.get_about() {
        page.text([roman(format!("{about}."))]);
    }
    page.control("PP", []);
    page.text([roman(usage(command))]);
    arguments(page, command, false);
    after(page, command);
}

/// The arguments. Those that every subcommand has stand with the whole line's.
fn arguments(page: &mut Roff, command: &Command, of_all: bool) {
    for argument in command.get_arguments() {
        let help = argument.get_id() == "help" || argument.get_id() == "version";
        if help || (argument.is_global_set() && !of_all) {
            continue;
        }
        let help = argument.get_help().map(ToString::to_string);
        page.control("TP", []);
        page.text([bold(name(argument))]);
        page.text([roman(help.unwrap_or_default() + &default(argument))]);
    }
}

/// "-o, --output FILE".
fn name(argument: &Arg) -> String {
    let short = argument.get_short().map(|short| format!("-{short}"));
    let long = argument.get_long().map(|long| format!("--{long}"));
    let names: Vec<String> = short.into_iter().chain(long).collect();
    let takes = argument.get_action().takes_values();
    let value = argument.get_value_names().filter(|_| takes);
    let value = value.map(|names| names.iter().map(|name| format!(" {name}")).collect());
    let value: String = value.unwrap_or_default();
    if names.is_empty() {
        value.trim_start().to_string()
    } else {
        names.join(", ") + &value
    }
}

fn default(argument: &Arg) -> String {
    let values: Vec<_> = argument.get_default_values().iter().collect();
    match (values.as_slice(), argument.get_action().takes_values()) {
        ([value], true) => format!(" [default: {}]", value.to_string_lossy()),
        _ => String::new(),
    }
}

/// What stands behind the help text, line for line.
fn after(page: &mut Roff, command: &Command) {
    if let Some(after) = command.get_after_help() {
        page.control("PP", []);
        page.control("nf", []);
        page.text([roman(after.to_string())]);
        page.control("fi", []);
    }
}
