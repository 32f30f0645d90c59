//! Commands by themselves, without a session: how many parameters a header
//! announces, and the words of a command.

use crate::{answer, lent, Answer};

/// A command: its header word and its parameter words, 0 past the last.
#[derive(Clone, Copy, Debug, PartialEq, Eq)]
pub struct Command {
    pub header: u32,
    pub fields: [u32; 4],
}

impl Command {
    /// The command that a word completed, by the room that its answer is written to;
    /// none where a command is still open.
    #[inline]
    pub(crate) fn completed(room: &[u32; 6]) -> Option<Command> {
        let [is_complete, header, fields @ ..] = *room;
        (is_complete != 0).then_some(Command { header, fields })
    }
}

/// How many parameters a header announces, 1 to 4. 2.
#[inline]
pub fn parameters(header: u32) -> Answer<u32> {
    let mut count = [0];
    answer(lent::command_parameters(header, &mut count))?;
    Ok(count[0])
}

/// Writes the command's words to the front of the room and answers how many they
/// are; what stands behind them isn't touched. Fields past the command's last
/// are not looked at, nor is a reserved parameter, which is written as 0. 2; then
/// 3, 4, 5, 6, and 11 where the room is too short.
#[inline]
pub fn write_command(command: &Command, room: &mut [u32]) -> Answer<usize> {
    let mut written = [0];
    let number = lent::command_write(command.header, &command.fields, room, &mut written);
    answer(number)?;
    Ok(written[0] as usize)
}
