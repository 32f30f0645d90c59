//! The command line of the program `compare`, taken apart.

use crate::Kind;

pub const HELP: &str = "\
Compares the product with the second program on made-up inputs.

usage: ./compare [--seconds S] [--seed N] [--kind KIND] [--case M | --draws LIST]

  --seconds S   go on for S seconds (default 10)
  --seed N      the seed of the cases (default 1)
  --kind KIND   only this kind: addresses, memory, streams, writer, flow, logs,
                scores, modes, kills, lessees, surveys, pictures,
                fleets, states, growing or trims
  --case M      only case M of the kind, and print both answers of every
                comparison; needs --kind
  --draws LIST  only the case that these drawn numbers make, hex, parted by
                commas, as a reduced case names them; needs --kind
  --help        this text

Ends with 0 if all answers agreed, 1 at the first difference (which is printed
with the command that runs its case again, and reduced to a smaller case), and
2 for a wrong command line.";

/// What the command line asks for.
#[derive(Clone, Debug, PartialEq, Eq)]
pub enum Wish {
    Help,
    /// One case, printed.
    Case {
        kind: Kind,
        seed: u64,
        number: u64,
    },
    /// The case that these numbers make, printed.
    Draws {
        kind: Kind,
        list: Vec<u64>,
    },
    /// Cases of these kinds in turn, until the seconds are over.
    Cases {
        kinds: Vec<Kind>,
        seed: u64,
        seconds: u64,
    },
}

/// The wish, or what is wrong with the command line.
pub fn parse(arguments: &[String]) -> Result<Wish, String> {
    let (mut seconds, mut seed, mut kind, mut number, mut list) = (10, 1, None, None, None);
    let mut rest = arguments.iter();
    while let Some(name) = rest.next() {
        if name == "--help" || name == "-h" {
            return Ok(Wish::Help);
        }
        let value = || rest.next().ok_or(format!("{name} needs a value"));
        match name.as_str() {
            "--seconds" => seconds = whole(name, value)?,
            "--seed" => seed = whole(name, value)?,
            "--case" => number = Some(whole(name, value)?),
            "--draws" => list = Some(numbers(value)?),
            "--kind" => kind = Some(kind_named(value)?),
            _ => return Err(format!("unknown argument {name}")),
        }
    }
    match (kind, number, list) {
        (_, Some(_), Some(_)) => Err("--case and --draws name two cases".to_string()),
        (None, Some(_), None) => Err("--case needs --kind".to_string()),
        (None, None, Some(_)) => Err("--draws needs --kind".to_string()),
        (Some(kind), Some(number), None) => Ok(Wish::Case { kind, seed, number }),
        (Some(kind), None, Some(list)) => Ok(Wish::Draws { kind, list }),
        (kind, None, None) => Ok(Wish::Cases {
            kinds: kind.map_or(Kind::ALL.to_vec(), |kind| vec![kind]),
            seed,
            seconds,
        }),
    }
}

fn whole<'a>(
    name: &str,
    value: impl FnOnce() -> Result<&'a String, String>,
) -> Result<u64, String> {
    let value = value()?;
    let wrong = |_| format!("{name} needs a whole number, not {value}");
    value.parse().map_err(wrong)
}

fn numbers<'a>(value: impl FnOnce() -> Result<&'a String, String>) -> Result<Vec<u64>, String> {
    let value = value()?;
    let number = |text| u64::from_str_radix(text, 16);
    let list: Result<Vec<u64>, _> = value.split(',').map(number).collect();
    list.map_err(|_| format!("--draws needs hex numbers parted by commas, not {value}"))
}

fn kind_named<'a>(value: impl FnOnce() -> Result<&'a String, String>) -> Result<Kind, String> {
    let name = value()?;
    Kind::named(name).ok_or(format!("there is no kind {name}"))
}

#[cfg(test)]
mod tests {
    use super::*;

    fn parsed(line: &str) -> Result<Wish, String> {
        let arguments: Vec<String> = line.split_whitespace().map(String::from).collect();
        parse(&arguments)
    }

    #[test]
    fn every_argument_is_read() {
        let kind = Kind::Flow;
        let (seed, number, seconds) = (7, 9, 3);
        let one = parsed("--kind flow --seed 7 --case 9");
        assert_eq!(one, Ok(Wish::Case { kind, seed, number }));
        let many = parsed("--seconds 3 --seed 7 --kind flow");
        let kinds = vec![kind];
        assert_eq!(
            many,
            Ok(Wish::Cases {
                kinds,
                seed,
                seconds
            })
        );
        let list = vec![0, 31];
        let drawn = parsed("--kind flow --draws 0,1f");
        assert_eq!(drawn, Ok(Wish::Draws { kind, list }));
        assert_eq!(parsed("--seed 7 --help"), Ok(Wish::Help));
    }

    #[test]
    fn without_arguments_all_kinds_run() {
        let wish = Wish::Cases {
            kinds: Kind::ALL.to_vec(),
            seed: 1,
            seconds: 10,
        };
        assert_eq!(parsed(""), Ok(wish));
    }

    #[test]
    fn wrong_lines_are_told() {
        for line in [
            "--case 3",
            "--draws 3",
            "--draws g --kind flow",
            "--draws 1 --case 1 --kind flow",
            "--kind",
            "--kind stream",
            "--seed x",
            "--seed",
            "-v",
            "3",
        ] {
            assert!(parsed(line).is_err(), "{line}");
        }
    }
}
