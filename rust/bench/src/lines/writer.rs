//! Commands written to words: those of the mixed stream.

use super::feed::lent_command;
use crate::inputs::mixed_stream;
use crate::table::Table;
use bench::fast::command::{write_command, Command};
use bench::fast::session::{Reply, Session};

pub fn add(table: &mut Table) {
    let name = "writer, mixed commands, a command";
    if !table.wants(name) {
        return;
    }
    let commands = commands();
    let lent: Vec<egretfold::Command> = commands.iter().map(lent_command).collect();
    check(&commands, &lent);
    table.line(
        name,
        commands.len(),
        || {
            let mut room = [0; 5];
            let written = lent.iter().map(|command| {
                let length = egretfold::write_command(command, &mut room);
                length.map_or_else(u64::from, |length| length as u64 + u64::from(room[0]))
            });
            written.sum()
        },
        || {
            let mut room = [0; 5];
            let written = commands.iter().map(|command| {
                let length = write_command(command, &mut room);
                length.map_or_else(u64::from, |length| length as u64 + u64::from(room[0]))
            });
            written.sum()
        },
    );
}

/// The commands of a mixed stream.
fn commands() -> Vec<Command> {
    let mut session = Session::new();
    let stream = mixed_stream(1 << 14);
    let replies = stream.iter().map(|&word| session.word(word));
    let commands = replies.filter_map(|reply| match reply {
        Ok(Reply::Done(command)) => Some(command),
        _ => None,
    });
    commands.collect()
}

fn check(commands: &[Command], lent: &[egretfold::Command]) {
    for (command, lent) in commands.iter().zip(lent) {
        // one room too short, one that fits most commands, and one with a word to spare
        for length in [1, 3, 6] {
            let (mut by_product, mut by_rust) = ([7; 6], [7; 6]);
            assert_eq!(
                egretfold::write_command(lent, &mut by_product[..length]).map_err(u32::from),
                write_command(command, &mut by_rust[..length]),
                "writer of {command:?} in {length} words"
            );
            assert_eq!(by_product, by_rust, "words of {command:?}");
        }
    }
}
