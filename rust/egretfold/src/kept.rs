//! States kept elsewhere: as bytes, low byte first, of a fixed length for each kind,
//! and back. What comes back is judged by the library before it is a state again, so
//! that no damaged bytes reach a call that trusts them.

use crate::lengths::{CELLS, LOG, MARKS, OWN, SHARED, SUMS, TALLIES};
use crate::{lent, Fleet, Group, Owners, Pair, Party, Refusal, Replay, Session};

/// The bytes of a number of 32 bits, and of one of 64.
const SHORT: usize = 4;
const LONG: usize = 8;

/// Which of a party's own numbers says what it owns: bits 15:0 the inputs, 19:16 the
/// outputs, and bit 20 what is party 0's.
const MINE: usize = 17;
const FIRST_OUTPUT: u32 = 16;
const COMMON: u32 = 20;

/// What a party owns that owns all of it.
const EVERYTHING: u32 = (1 << (COMMON + 1)) - 1;

impl Session {
    /// How many bytes a session is kept in.
    pub const BYTES: usize = SHORT * (OWN + SHARED) + LONG * TALLIES;

    /// The session as bytes.
    pub fn to_bytes(&self) -> Vec<u8> {
        let mut bytes = Vec::with_capacity(Session::BYTES);
        self.put(&mut bytes);
        bytes
    }

    /// The session of these bytes; none where they are no session's. A party of a
    /// [`Pair`], which doesn't own everything, is none either.
    ///
    /// ```
    /// use egretfold::headers::{SET_DOMAIN, WAIT_FOR_IDLE};
    /// use egretfold::{Edition, Session};
    ///
    /// let mut session = Session::new(Edition::First);
    /// session.feed(&[WAIT_FOR_IDLE, 0, SET_DOMAIN, 0, 0]);
    /// let kept = session.to_bytes();
    /// let mut again = Session::from_bytes(&kept).expect("a session's bytes");
    /// assert_eq!(again.feed(&[95, 17]), session.feed(&[95, 17]));
    /// assert_eq!(again, session);
    /// assert_eq!(Session::from_bytes(&vec![0; kept.len()]), None);
    /// ```
    pub fn from_bytes(bytes: &[u8]) -> Option<Session> {
        let mut cells = Cells::of(bytes, Session::BYTES)?;
        let session = cells.session();
        let Session {
            own,
            tallies,
            shared,
        } = &session;
        let judged = lent::session_check(own, tallies, shared) && session.owns_everything();
        judged.then_some(session)
    }

    fn put(&self, bytes: &mut Vec<u8>) {
        put_short(bytes, &self.own);
        put_long(bytes, &self.tallies);
        put_short(bytes, &self.shared);
    }

    fn owns_everything(&self) -> bool {
        self.own[MINE] == EVERYTHING
    }
}

impl Pair {
    /// How many bytes a session of two parties is kept in.
    pub const BYTES: usize = SHORT * (2 * OWN + SHARED) + LONG * 2 * TALLIES;

    /// The session of two parties as bytes.
    pub fn to_bytes(&self) -> Vec<u8> {
        let mut bytes = Vec::with_capacity(Pair::BYTES);
        for party in Party::BOTH {
            put_short(&mut bytes, &self.own[party.place()]);
            put_long(&mut bytes, &self.tallies[party.place()]);
        }
        put_short(&mut bytes, &self.shared);
        bytes
    }

    /// The session of two parties of these bytes; none where they are none's, nor
    /// where a number is nobody's.
    pub fn from_bytes(bytes: &[u8]) -> Option<Pair> {
        let mut cells = Cells::of(bytes, Pair::BYTES)?;
        let (own0, tallies0) = (cells.short(), cells.long());
        let (own1, tallies1) = (cells.short(), cells.long());
        let shared = cells.short();
        if !lent::pair_check([&own0, &own1], [&tallies0, &tallies1], &shared) {
            return None;
        }
        // Judged: nothing is owned by both.
        let [zero, one] = [own0[MINE], own1[MINE]];
        let whole = zero | one == EVERYTHING && one >> COMMON == 0;
        let owners = Owners {
            inputs: one & ((1 << FIRST_OUTPUT) - 1),
            outputs: one >> FIRST_OUTPUT,
        };
        whole.then_some(Pair {
            owners,
            own: [own0, own1],
            tallies: [tallies0, tallies1],
            shared,
        })
    }
}

impl Replay {
    /// How many bytes a replay is kept in.
    pub const BYTES: usize = SHORT * LOG + LONG * MARKS + Session::BYTES;

    /// The replay as bytes.
    pub fn to_bytes(&self) -> Vec<u8> {
        let mut bytes = Vec::with_capacity(Replay::BYTES);
        put_short(&mut bytes, &self.log);
        put_long(&mut bytes, &*self.marks);
        self.session.put(&mut bytes);
        bytes
    }

    /// The replay of these bytes; none where they are no replay's.
    pub fn from_bytes(bytes: &[u8]) -> Option<Replay> {
        let mut cells = Cells::of(bytes, Replay::BYTES)?;
        let replay = Replay {
            log: cells.short(),
            marks: Box::new(cells.long()),
            session: cells.session(),
        };
        let Session {
            own,
            tallies,
            shared,
        } = &replay.session;
        let judged = lent::log_check(&replay.log, &replay.marks, own, tallies, shared)
            && replay.session.owns_everything()
            && replay.names_refusals();
        judged.then_some(replay)
    }

    /// Whether its first refused word, if there is one, has the number of a refusal.
    fn names_refusals(&self) -> bool {
        let mut status = [0; 7];
        lent::log_status(self, &mut status);
        status[1] == 0 || Refusal::with_number(status[1]).is_some()
    }
}

impl Group {
    /// How many bytes a group is kept in.
    pub const BYTES: usize = SHORT * CELLS;

    /// The group as bytes.
    pub fn to_bytes(&self) -> Vec<u8> {
        let mut bytes = Vec::with_capacity(Group::BYTES);
        put_short(&mut bytes, &self.cells);
        bytes
    }

    /// The group of these bytes; none where they are no group's.
    pub fn from_bytes(bytes: &[u8]) -> Option<Group> {
        let cells = Cells::of(bytes, Group::BYTES)?.short();
        lent::group_check(&cells).then_some(Group { cells })
    }
}

impl Fleet {
    /// How many bytes a growing report is kept in.
    pub const BYTES: usize = LONG * SUMS;

    /// The report as bytes.
    pub fn to_bytes(&self) -> Vec<u8> {
        let mut bytes = Vec::with_capacity(Fleet::BYTES);
        put_long(&mut bytes, &self.sums);
        bytes
    }

    /// The report of these bytes; none where they are no report's.
    pub fn from_bytes(bytes: &[u8]) -> Option<Fleet> {
        let sums = Cells::of(bytes, Fleet::BYTES)?.long();
        lent::fleet_check(&sums).then_some(Fleet { sums })
    }
}

fn put_short(bytes: &mut Vec<u8>, numbers: &[u32]) {
    for number in numbers {
        bytes.extend(number.to_le_bytes());
    }
}

fn put_long(bytes: &mut Vec<u8>, numbers: &[u64]) {
    for number in numbers {
        bytes.extend(number.to_le_bytes());
    }
}

/// The numbers of a state that are still to be read.
struct Cells<'a> {
    left: &'a [u8],
}

impl Cells<'_> {
    /// Those of just so many bytes.
    fn of(bytes: &[u8], length: usize) -> Option<Cells<'_>> {
        (bytes.len() == length).then_some(Cells { left: bytes })
    }

    fn short<const COUNT: usize>(&mut self) -> [u32; COUNT] {
        let mut numbers = [0; COUNT];
        for (number, bytes) in numbers.iter_mut().zip(self.take(COUNT, SHORT)) {
            *number = joined(bytes) as u32;
        }
        numbers
    }

    fn long<const COUNT: usize>(&mut self) -> [u64; COUNT] {
        let mut numbers = [0; COUNT];
        for (number, bytes) in numbers.iter_mut().zip(self.take(COUNT, LONG)) {
            *number = joined(bytes);
        }
        numbers
    }

    fn session(&mut self) -> Session {
        Session {
            own: self.short(),
            tallies: self.long(),
            shared: self.short(),
        }
    }

    fn take(&mut self, count: usize, width: usize) -> std::slice::ChunksExact<'_, u8> {
        let (taken, left) = self.left.split_at(count * width);
        self.left = left;
        taken.chunks_exact(width)
    }
}

/// A number's bytes, the low one first, put together.
fn joined(bytes: &[u8]) -> u64 {
    bytes
        .iter()
        .rev()
        .fold(0, |number, byte| number << 8 | u64::from(*byte))
}
