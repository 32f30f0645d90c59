//! A session: command words taken one by one or in pieces, the settings that
//! they leave, and the tallies.

use crate::lengths::{OWN, SHARED, TALLIES};
use crate::{accepted, answer, lent, Answer, Command, Edition, Owned, Refusal, View};

/// A session's state, of one party that owns every number. Its arrays are private, so that it is always one that the
/// library gave out. It may be cloned and both copies used.
#[derive(Clone, Debug, PartialEq, Eq)]
pub struct Session {
    pub(crate) own: [u32; OWN],
    pub(crate) tallies: [u64; TALLIES],
    pub(crate) shared: [u32; SHARED],
}

/// What an accepted word answers.
#[derive(Clone, Copy, Debug, PartialEq, Eq)]
pub enum Reply {
    /// A command is open and waits for more words.
    Open,
    /// The word completed this command.
    Done(Command),
}

/// What a piece of words answers.
#[derive(Clone, Copy, Debug, PartialEq, Eq)]
pub struct Fed {
    /// Words taken. Where a word was refused, its place in the piece.
    pub taken: u64,
    /// Commands that these words completed.
    pub commands: u64,
    /// The refusal of the first refused word, or none.
    pub refusal: Option<Refusal>,
}

/// Where a session stands.
#[derive(Clone, Copy, Debug, PartialEq, Eq)]
pub struct Status {
    /// Words taken since the session began.
    pub taken: u32,
    pub stopped: bool,
    /// The open command's header, and how many of its parameters were taken.
    pub open: Option<(u32, u32)>,
    /// 0, 7, 8 or 9: what the settings alone give a start. The stop, the words taken and the open command play no part.
    pub readiness: u32,
    /// The edition that the session began under.
    pub edition: Edition,
}

/// A format that a command has set. Instructions and constants have height 1.
#[derive(Clone, Copy, Debug, PartialEq, Eq)]
pub struct Format {
    pub base: u32,
    pub format: u32,
    pub height: u32,
}

impl Session {
    /// A new session under an edition: nothing set, mask 65535.
    #[inline]
    pub fn new(edition: Edition) -> Session {
        let begun = lent::session_begin(edition.number());
        begun.expect("both editions are accepted")
    }

    /// Takes one word. 1 to 9 or 17; all but 1 stop the session and drop the open
    /// command.
    #[inline]
    pub fn word(&mut self, word: u32) -> Answer<Reply> {
        let mut room = [0; 6];
        accepted(lent::session_word(self, word, &mut room))?;
        Ok(Command::completed(&room).map_or(Reply::Open, Reply::Done))
    }

    /// Takes a piece of words, one after another up to the first refused one.
    ///
    /// ```
    /// use egretfold::headers::{START_PROGRAM, WAIT_FOR_IDLE};
    /// use egretfold::{Edition, Refusal, Session};
    ///
    /// let mut session = Session::new(Edition::First);
    /// let fed = session.feed(&[WAIT_FOR_IDLE, 0, START_PROGRAM, 0]);
    /// // Nothing is set yet, so the start's last word is refused; what came before stands.
    /// assert_eq!((fed.taken, fed.commands), (3, 1));
    /// assert_eq!(fed.refusal, Some(Refusal::StartUnset));
    /// assert!(session.status().stopped);
    /// ```
    #[inline]
    pub fn feed(&mut self, words: &[u32]) -> Fed {
        let mut fed = [0; 2];
        let number = lent::session_feed(self, words, &mut fed);
        Fed {
            taken: fed[0],
            commands: fed[1],
            refusal: answer(number).err(),
        }
    }

    /// What can be asked of it; the functions below are the same for short.
    #[inline]
    pub fn view(&self) -> View<'_> {
        View {
            own: &self.own,
            tallies: &self.tallies,
            shared: &self.shared,
            owned: Owned::ALL,
        }
    }

    #[inline]
    pub fn status(&self) -> Status {
        self.view().status()
    }

    /// Starts that passed.
    #[inline]
    pub fn runs(&self) -> u64 {
        self.view().runs()
    }

    /// The elements that those starts claimed.
    #[inline]
    pub fn claims(&self) -> u64 {
        self.view().claims()
    }

    /// i0, j0, i1, j1, both ends included.
    #[inline]
    pub fn domain(&self) -> Option<[u32; 4]> {
        self.view().domain()
    }

    /// The format that the command with this header set, as [`View::format`]. 2; 4.
    #[inline]
    pub fn format(&self, header: u32, number: u32) -> Answer<Option<Format>> {
        self.view().format(header, number)
    }

    #[inline]
    pub fn output_mask(&self) -> u32 {
        self.view().output_mask()
    }

    #[inline]
    pub fn conditional_mask(&self) -> Option<u32> {
        self.view().conditional_mask()
    }

    #[inline]
    pub fn test(&self) -> Option<u32> {
        self.view().test()
    }

    /// Whether the conditional test passes at the pair (x, y): `value op b`, where op is
    /// the test that is set and b what the conditional buffer holds there, in memory of
    /// which the first byte stands at address `first`. The session may be stopped, and
    /// a refusal stops nothing. 7 where no conditional buffer or no test is set, 3 where
    /// the buffer isn't UINT16_1; then 10 or 11.
    #[inline]
    pub fn conditional_test(
        &self,
        value: u32,
        x: u32,
        y: u32,
        memory: &[u8],
        first: u32,
    ) -> Answer<bool> {
        let mut passed = [0];
        let pair = (x, y);
        let number = lent::conditional_test(self, value, pair, memory, first, &mut passed);
        accepted(number)?;
        Ok(passed[0] != 0)
    }

    /// The conditional test at all pairs of a domain, i0, j0, i1, j1, both ends
    /// included, with one value: how many pass, and in the room, whose length is the
    /// number of pairs, a byte 1 or 0 for each, row by row. 7, 3, 5 where the ends are
    /// crossed, 10 where a pair is outside, or 11.
    #[inline]
    pub fn survey(
        &self,
        value: u32,
        domain: [u32; 4],
        memory: &[u8],
        first: u32,
        room: &mut [u8],
    ) -> Answer<u32> {
        let mut passed = [0];
        let number =
            lent::conditional_survey(self, value, domain, memory, first, room, &mut passed);
        accepted(number)?;
        Ok(passed[0])
    }
}
