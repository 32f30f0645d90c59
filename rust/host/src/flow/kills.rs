//! Kills between the steps of `flow` (request 11): what the command line asks for,
//! registers as a user writes them, and why a kill was refused.

use crate::common::failure::{Failure, Outcome};
use crate::common::kinds::{SlotNumber, Word};
use crate::common::text;
use crate::explain::cause::{self, Refused};
use crate::input::lines::Lines;
use crate::input::numbers;
use crate::input::source::Source;
use egretfold::lengths::CHANNELS;
use egretfold::{Group, Program};
use serde_json::{json, Value};
use std::path::PathBuf;

/// A kill as the command line has it.
#[derive(Clone)]
pub struct Asked {
    step: u32,
    mask: u32,
    pub file: PathBuf,
}

/// Reads STEP:MASK:FILE.
pub fn asked(text: &str) -> Result<Asked, String> {
    let mut parts = text.splitn(3, ':');
    match (parts.next(), parts.next(), parts.next()) {
        (Some(step), Some(mask), Some(file)) if !file.is_empty() => Ok(Asked {
            step: numbers::count(step)?,
            mask: numbers::word(mask)?,
            file: PathBuf::from(file),
        }),
        _ => Err(format!("{text:?} is no STEP:MASK:FILE")),
    }
}

/// A kill with its registers.
pub struct Kill {
    /// The step that it comes before.
    pub step: usize,
    mask: u32,
    registers: Vec<f32>,
}

/// The kills in the order of their steps, those of one step as they are given. Each
/// comes before one of the steps that there are masks for, or behind the last.
pub fn all(asked: &[Asked], steps: usize) -> Outcome<Vec<Kill>> {
    let mut kills = Vec::new();
    for Asked { step, mask, file } in asked {
        let step = *step as usize;
        if step > steps {
            let masks = text::count(steps as u64, "step");
            let told = format!("--kill {step}: there are masks for {masks}, numbered from 0");
            return Err(Failure::Wrong(told));
        }
        kills.push(Kill {
            step,
            mask: *mask,
            registers: registers(Source::open(Some(file))?)?,
        });
    }
    kills.sort_by_key(|kill| kill.step);
    Ok(kills)
}

/// Registers that are read of a file: some more than any group takes, so that too many are
/// counted.
const MOST: usize = 64;

/// Registers, a line each: four channels, parted by blanks or commas.
fn registers(source: Source) -> Outcome<Vec<f32>> {
    let mut lines = Lines::new(source);
    let mut registers = Vec::new();
    while let Some(line) = lines.next()? {
        let is_gap = |c: char| c == ',' || c.is_whitespace();
        let channels: Vec<&str> = line.split(is_gap).filter(|part| !part.is_empty()).collect();
        if channels.is_empty() {
            continue;
        }
        if registers.len() == MOST * CHANNELS {
            let told = format!("over {MOST} registers, and a group has 32 processors at most");
            return Err(lines.wrong(&told));
        }
        if channels.len() != CHANNELS {
            let given = channels.len();
            let told = format!("a register has {CHANNELS} channels, and here are {given}");
            return Err(lines.wrong(&told));
        }
        for channel in channels {
            registers.push(float(channel).map_err(|told| lines.wrong(&told))?);
        }
    }
    Ok(registers)
}

/// A float: decimal, inf or nan, with or without a sign, or its bits in hex with 0x.
fn float(text: &str) -> Result<f32, String> {
    if text.starts_with("0x") || text.starts_with("0X") {
        return numbers::word(text).map(f32::from_bits);
    }
    let number: f32 = text
        .parse()
        .map_err(|_| format!("{text:?} is no number, inf or nan, nor bits as 0xFF800000"))?;
    // What a reader takes for a number must not become an infinity or a zero unsaid.
    let significant = text.split(['e', 'E']).next().unwrap_or(text);
    let digit = |c: char| ('1'..='9').contains(&c);
    if number.is_infinite() && significant.contains(digit) {
        return Err(format!("{text} is too large for a float"));
    }
    if number == 0.0 && significant.contains(digit) {
        return Err(format!("{text} is too close to 0 for a float"));
    }
    Ok(number)
}

impl Kill {
    /// Kills; answers those who were killed now.
    pub fn make(&self, program: &Program, group: &mut Group) -> Result<u32, u32> {
        Ok(group.kill(program, &self.registers, self.mask)?)
    }

    /// Why it was refused.
    pub fn refused(&self, number: u32, program: &Program, group: &Group) -> Refused {
        let cause = match number {
            16 => Some(super::slots::ended(program, group)),
            13 => Some(format!(
                "write mask {:X} is over F: it has a bit for each of {CHANNELS} channels",
                self.mask
            )),
            11 => {
                let (given, started) = (self.registers.len() / CHANNELS, group.started());
                let given = text::count(given as u64, "register");
                let group = text::count(u64::from(started), "processor");
                Some(format!(
                    "{given} for a group that began with {group}, of which each has one, killed or not"
                ))
            }
            _ => None,
        };
        cause::refused(number, cause)
    }

    /// The row of a kill that was made; the group is as it left it.
    pub fn text(&self, number: SlotNumber, killed: u32, group: &Group) -> String {
        let count = text::count(u64::from(killed.count_ones()), "processor");
        let (killed, active) = (Word(killed), Word(group.active()));
        let so_far = Word(group.killed());
        let (step, mask) = (self.step, self.mask);
        format!(
            "{step:>4}  {number:>4}  kill under write mask {mask:X}: {count}, {killed}; \
             killed so far {so_far}, active {active}"
        )
    }

    pub fn json(&self, number: SlotNumber, killed: u32, group: &Group) -> Value {
        let mut value = json!({ "step": self.step, "slot": number.0 });
        value["mask"] = json!(format!("{:X}", self.mask));
        value["now"] = json!(Word(killed).to_string());
        value["killed"] = json!(Word(group.killed()).to_string());
        value["active"] = json!(Word(group.active()).to_string());
        json!({ "kill": value })
    }
}

#[cfg(test)]
mod tests {
    use super::{asked, float};

    #[test]
    fn floats_are_decimal_or_bits() {
        for (text, bits) in [
            ("0", 0),
            ("-0", 0x8000_0000),
            ("-0e9", 0x8000_0000),
            ("1.5", 0x3FC0_0000),
            ("-1e-45", 0x8000_0001),
            ("-inf", 0xFF80_0000),
            ("0xFF812345", 0xFF81_2345),
        ] {
            assert_eq!(float(text).map(f32::to_bits), Ok(bits), "{text}");
        }
        assert!(float("nan").unwrap().is_nan());
        for text in ["", "x", "1,5", "0x", "0x1FFFFFFFF", "1e39", "-1e-60", "FF"] {
            assert!(float(text).is_err(), "{text}");
        }
    }

    #[test]
    fn a_kill_has_three_parts() {
        let kill = asked("2:F:registers:one").ok().unwrap();
        assert_eq!((kill.step, kill.mask), (2, 15));
        assert_eq!(kill.file.to_str(), Some("registers:one"));
        for text in ["", "2", "2:F", "2:F:", "x:F:f", "2:G:f"] {
            assert!(asked(text).is_err(), "{text}");
        }
    }
}
