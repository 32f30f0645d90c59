//! Cases of the fourth kind: a command with good, edge or wild fields is written
//! to room of 0 to 8 words. Room past the words, and all room after a refusal,
//! must be as it was.

use crate::case::{Agreement, Case};
use crate::commands;
use crate::random::Random;
use egretfold::lent;
use second::command::{parameters, write, Command};

/// Words kept before and behind the room, to see that no call leaves it.
const FENCE: usize = 4;

pub fn run(case: &mut Case) -> Agreement {
    let command = any_command(&mut case.random);
    announced(case, command.header)?;
    written(case, &command)
}

/// A command of any kind; fields past its last are noise, as they aren't looked
/// at, and so is a reserved parameter.
fn any_command(random: &mut Random) -> Command {
    let header = if random.once_in(16) {
        commands::unknown_header(random)
    } else {
        commands::known_header(random)
    };
    let mut fields = match random.below(16) {
        0 => noise(random),
        _ => commands::good_fields(random, header),
    };
    for _ in 0..random.one_of(&[0, 0, 1, 1, 2]) {
        commands::spoil(random, header, &mut fields);
    }
    let last = parameters(header).unwrap_or(4) as usize;
    let tail = noise(random);
    fields[last..].copy_from_slice(&tail[last..]);
    Command { header, fields }
}

fn noise(random: &mut Random) -> [u32; 4] {
    [random.word(), random.word(), random.word(), random.word()]
}

/// How many parameters the header announces.
fn announced(case: &mut Case, header: u32) -> Agreement {
    let asked = || format!("parameters {header:#010X}");
    let product = egretfold::parameters(header);
    case.agree_answer(asked, &product, &parameters(header))?;
    if product.is_err() {
        let filled = [case.random.word()];
        let mut room = filled;
        lent::command_parameters(header, &mut room);
        case.untouched(asked, &room, &filled)?;
    }
    Ok(())
}

/// The writer's answer, and all room as it must be then: the words in front where
/// they were accepted, and everything else as it was filled.
fn written(case: &mut Case, command: &Command) -> Agreement {
    let length = case.random.below(9) as usize;
    let mut filled = [0; 8 + 2 * FENCE];
    filled.fill_with(|| case.random.word());
    let asked = || {
        let Command { header, fields } = command;
        format!("write {header:#010X} {fields:X?} to room of {length} words")
    };
    let mut fenced = filled;
    let room = &mut fenced[FENCE..FENCE + length];
    let product = egretfold::write_command(&for_product(command), room);
    let expected = write(command, length);
    let count = expected.as_ref().map(Vec::len).map_err(|number| *number);
    case.agree_answer(asked, &product, &count)?;
    let mut right = filled;
    match expected {
        Ok(words) => {
            right[FENCE..FENCE + words.len()].copy_from_slice(&words);
            case.tally.mark(commands::name(command.header));
        }
        Err(_) => count_untouched(case, command, length)?,
    }
    case.agree(|| format!("the room after {}", asked()), &fenced, &right)
}

/// A refused command leaves also the count of words as it was.
fn count_untouched(case: &mut Case, command: &Command, length: usize) -> Agreement {
    let filled = [case.random.word()];
    let mut count = filled;
    let mut room = vec![0; length];
    lent::command_write(command.header, &command.fields, &mut room, &mut count);
    case.untouched(|| format!("write {command:X?}"), &count, &filled)
}

/// The command as the boundary takes it.
pub fn for_product(command: &Command) -> egretfold::Command {
    egretfold::Command {
        header: command.header,
        fields: command.fields,
    }
}
