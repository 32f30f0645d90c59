//! The header's functions one by one, made safe, with rooms that the caller
//! lends. Each returns 0 or the refusal's number. A refusal touches no room,
//! except [`session_feed`]'s and [`log_feed`]'s, which are written in any case: a
//! caller who fills the rooms first can see that.
//!
//! All `unsafe` of the Rust side is on this page. The header asks three things,
//! and they hold in every block below for the same reasons:
//!
//! * arrays of the lengths shown: the declarations take references to arrays of
//!   just these lengths, and a pointer with a length comes from one slice (also
//!   an empty slice's pointer is not null);
//! * nothing written overlaps anything else: every array that is written comes
//!   as a `&mut`, which nothing else can share;
//! * states as the library left them: [`Session`], [`Pair`], [`Replay`], [`Group`] and [`Fleet`]
//!   keep their arrays private and are made only by a begin that was accepted, or of
//!   bytes whose arrays the library's own check says yes to. A replay's session is
//!   shown but never handed out to be changed.

use crate::fleet::Fleet;
use crate::flow::{Group, Program};
use crate::layout::Layout;
use crate::lengths::{CELLS, CHANNELS, DAYS, LOG, MARKS, OWN, SHARED, SLOTS, SUMS, TALLIES};
use crate::log::Replay;
use crate::pair::{Owners, Pair, Party};
use crate::picture::Rectangle;
use crate::raw;
use crate::session::Session;
use crate::view::View;
use crate::{answer, Answer};

/// Arrays that no begin has filled yet.
const UNFILLED: Session = Session {
    own: [0; OWN],
    tallies: [0; TALLIES],
    shared: [0; SHARED],
};

/// A new session under the edition with this number. 3.
#[inline]
pub fn session_begin(edition: u32) -> Answer<Session> {
    let mut session = UNFILLED;
    answer(session_begin_anew(&mut session, edition))?;
    Ok(session)
}

/// A new session in the arrays of this one, under the edition with this number. 3: then it stays as it was.
#[inline]
pub fn session_begin_anew(session: &mut Session, edition: u32) -> u32 {
    let Session {
        own,
        tallies,
        shared,
    } = session;
    // SAFETY: three separate arrays of the right lengths; no state is read.
    unsafe { raw::egretfold_session_begin(own, tallies, shared, edition) }
}

/// One word. command: 0 where a command is still open, else 1; then the
/// completed command's header and four parameters. 1 to 9 or 17, and 20 where
/// the arrays are a party's of a pair.
#[inline]
pub fn session_word(session: &mut Session, word: u32, command: &mut [u32; 6]) -> u32 {
    let Session {
        own,
        tallies,
        shared,
    } = session;
    // SAFETY: the arrays are a session's that the library gave out; the room is
    // apart from them.
    unsafe { raw::egretfold_session_word(own, tallies, shared, word, command) }
}

/// A piece of words. fed: the words taken and the commands completed. Returns
/// the first refused word's refusal, or 0.
#[inline]
pub fn session_feed(session: &mut Session, words: &[u32], fed: &mut [u64; 2]) -> u32 {
    let Session {
        own,
        tallies,
        shared,
    } = session;
    let (start, length) = (words.as_ptr(), words.len());
    // SAFETY: as for a word; start and length are one slice's.
    unsafe { raw::egretfold_session_feed(own, tallies, shared, start, length, fed) }
}

/// status: words taken, 1 if stopped, the open command's header and how many of
/// its parameters were taken, what the settings give a start, and the edition.
#[inline]
pub fn session_status(party: View, status: &mut [u32; 6]) -> u32 {
    // SAFETY: the array is a party's that the library gave out.
    unsafe { raw::egretfold_session_status(party.own, status) }
}

/// counts: runs and claimed elements.
#[inline]
pub fn session_tallies(party: View, counts: &mut [u64; 2]) -> u32 {
    // SAFETY: the array is a party's that the library gave out.
    unsafe { raw::egretfold_session_tallies(party.tallies, counts) }
}

/// domain: 1 if it is set, then i0, j0, i1, j1.
#[inline]
pub fn session_domain(party: View, domain: &mut [u32; 5]) -> u32 {
    // SAFETY: the array is a party's that the library gave out.
    unsafe { raw::egretfold_session_domain(party.own, domain) }
}

/// format: 1 if it is set, then base, format word and height. 2, 4.
#[inline]
pub fn session_format(party: View, header: u32, number: u32, format: &mut [u32; 4]) -> u32 {
    let View { own, shared, .. } = party;
    // SAFETY: the arrays are a party's that the library gave out.
    unsafe { raw::egretfold_session_format(own, shared, header, number, format) }
}

/// masks: the output mask; 1 if the conditional mask is set, and the mask; 1 if
/// the test is set, and the test.
#[inline]
pub fn session_masks(party: View, masks: &mut [u32; 5]) -> u32 {
    // SAFETY: the array is a party's that the library gave out.
    unsafe { raw::egretfold_session_masks(party.shared, masks) }
}

/// Whether the library takes these arrays as a session's, or a party's with the settings that it shares.
#[inline]
pub fn session_check(own: &[u32; OWN], tallies: &[u64; TALLIES], shared: &[u32; SHARED]) -> bool {
    // SAFETY: arrays of the right lengths, of which nothing else is asked; nothing is written.
    unsafe { raw::egretfold_session_check(own, tallies, shared) }
}

/// A new session of two parties under the edition with this number. 3.
#[inline]
pub fn pair_begin(edition: u32, owners: Owners) -> Answer<Pair> {
    let mut pair = Pair {
        owners,
        own: [[0; OWN]; 2],
        tallies: [[0; TALLIES]; 2],
        shared: [0; SHARED],
    };
    answer(pair_begin_anew(&mut pair, edition, owners))?;
    Ok(pair)
}

/// A new session of two parties in the arrays of this one, under the edition with this number. 3: then it stays as it was.
#[inline]
pub fn pair_begin_anew(pair: &mut Pair, edition: u32, owners: Owners) -> u32 {
    let (own0, tallies0, own1, tallies1, shared) = arrays_of_both(pair);
    let Owners { inputs, outputs } = owners;
    // SAFETY: five separate arrays of the right lengths; no state is read.
    let number = unsafe {
        raw::egretfold_pair_begin(
            own0, tallies0, own1, tallies1, shared, inputs, outputs, edition,
        )
    };
    if number == 0 {
        pair.owners = owners;
    }
    number
}

/// The arrays of both parties, then the settings.
type ArraysOfBoth<'a> = (
    &'a mut [u32; OWN],
    &'a mut [u64; TALLIES],
    &'a mut [u32; OWN],
    &'a mut [u64; TALLIES],
    &'a mut [u32; SHARED],
);

#[inline]
fn arrays_of_both(pair: &mut Pair) -> ArraysOfBoth<'_> {
    let [own0, own1] = &mut pair.own;
    let [tallies0, tallies1] = &mut pair.tallies;
    (own0, tallies0, own1, tallies1, &mut pair.shared)
}

/// One word of a party, as [`session_word`]. 1 to 9, 17 or 20.
#[inline]
pub fn pair_word(pair: &mut Pair, party: Party, word: u32, command: &mut [u32; 6]) -> u32 {
    let own = &mut pair.own[party.place()];
    let tallies = &mut pair.tallies[party.place()];
    // SAFETY: the arrays are a party's that the library gave out, with the settings
    // that it shares; the room is apart from them.
    unsafe { raw::egretfold_session_word(own, tallies, &mut pair.shared, word, command) }
}

/// A piece of one party's words, as [`session_feed`].
#[inline]
pub fn pair_party_feed(pair: &mut Pair, party: Party, words: &[u32], fed: &mut [u64; 2]) -> u32 {
    let own = &mut pair.own[party.place()];
    let tallies = &mut pair.tallies[party.place()];
    let (start, length) = (words.as_ptr(), words.len());
    // SAFETY: as for a party's word; start and length are one slice's.
    unsafe { raw::egretfold_session_feed(own, tallies, &mut pair.shared, start, length, fed) }
}

/// A piece of both parties' words. parties: bit k of number i is the party of word 32
/// i + k. fed: of party 0 the words taken, the commands completed and the first
/// refusal in this piece, 0 for none; then the same of party 1. 11.
#[inline]
pub fn pair_feed(pair: &mut Pair, words: &[u32], parties: &[u32], fed: &mut [u64; 6]) -> u32 {
    let (own0, tallies0, own1, tallies1, shared) = arrays_of_both(pair);
    let (start, length) = (words.as_ptr(), words.len());
    let (bits, groups) = (parties.as_ptr(), parties.len());
    // SAFETY: the arrays are a pair's that the library gave out; both pointers come
    // with their own slice's length; the room is apart from all of them.
    unsafe {
        raw::egretfold_pair_feed(
            own0, tallies0, own1, tallies1, shared, start, length, bits, groups, fed,
        )
    }
}

/// Whether the library takes these arrays as a pair's: own numbers and tallies of both parties, and the settings.
#[inline]
pub fn pair_check(
    own: [&[u32; OWN]; 2],
    tallies: [&[u64; TALLIES]; 2],
    shared: &[u32; SHARED],
) -> bool {
    // SAFETY: arrays of the right lengths, of which nothing else is asked; nothing is written.
    unsafe { raw::egretfold_pair_check(own[0], tallies[0], own[1], tallies[1], shared) }
}

/// A replay's five arrays, its session's last.
type Arrays<'a> = (
    &'a mut [u32; LOG],
    &'a mut [u64; MARKS],
    &'a mut [u32; OWN],
    &'a mut [u64; TALLIES],
    &'a mut [u32; SHARED],
);

#[inline]
fn arrays(replay: &mut Replay) -> Arrays<'_> {
    let Session {
        own,
        tallies,
        shared,
    } = &mut replay.session;
    (&mut replay.log, &mut replay.marks, own, tallies, shared)
}

/// A new replay under the edition with this number. 3.
#[inline]
pub fn log_begin(edition: u32) -> Answer<Replay> {
    let mut replay = Replay {
        log: [0; LOG],
        marks: Box::new([0; MARKS]),
        session: UNFILLED,
    };
    answer(log_begin_anew(&mut replay, edition))?;
    Ok(replay)
}

/// A new replay in the arrays of this one, under the edition with this number. 3: then it stays as it was.
#[inline]
pub fn log_begin_anew(replay: &mut Replay, edition: u32) -> u32 {
    let (log, marks, own, tallies, shared) = arrays(replay);
    // SAFETY: five separate arrays of the right lengths; no state is read.
    unsafe { raw::egretfold_log_begin(log, marks, own, tallies, shared, edition) }
}

/// A piece of bytes. taken: the bytes taken. Returns the first refused byte's
/// refusal, or 0.
#[inline]
pub fn log_feed(replay: &mut Replay, bytes: &[u8], taken: &mut [u64; 1]) -> u32 {
    let (log, marks, own, tallies, shared) = arrays(replay);
    let (start, length) = (bytes.as_ptr(), bytes.len());
    // SAFETY: the arrays are a replay's that the library gave out; start and
    // length are one slice's; the room is apart from all of them.
    unsafe { raw::egretfold_log_feed(log, marks, own, tallies, shared, start, length, taken) }
}

/// One byte. Returns its refusal, or 0.
#[inline]
pub fn log_byte(replay: &mut Replay, byte: u8) -> u32 {
    let (log, marks, own, tallies, shared) = arrays(replay);
    // SAFETY: the arrays are a replay's that the library gave out.
    unsafe { raw::egretfold_log_byte(log, marks, own, tallies, shared, byte) }
}

/// status: what stopped the replay, the first refused word's refusal and the
/// midnights before it, the midnights, the first and the last day, and the bytes
/// of an unfinished record.
#[inline]
pub fn log_status(replay: &Replay, status: &mut [u32; 7]) -> u32 {
    // SAFETY: the array is a replay's that the library gave out.
    unsafe { raw::egretfold_log_status(&replay.log, status) }
}

/// counts: runs and claimed elements of a part: 0 is before the first midnight, k
/// the k-th day.
#[inline]
pub fn log_part(replay: &Replay, part: u32, counts: &mut [u64; 2]) -> u32 {
    let tallies = &replay.session.tallies;
    // SAFETY: the arrays are a replay's that the library gave out.
    unsafe { raw::egretfold_log_part(&replay.log, &replay.marks, tallies, part, counts) }
}

/// Forgets all midnights but the last. 0 in any case.
#[inline]
pub fn log_trim(replay: &mut Replay) -> u32 {
    // SAFETY: the arrays are a replay's that the library gave out.
    unsafe { raw::egretfold_log_trim(&mut replay.log, &mut replay.marks) }
}

/// Whether the library takes these arrays as a replay's.
#[inline]
pub fn log_check(
    log: &[u32; LOG],
    marks: &[u64; MARKS],
    own: &[u32; OWN],
    tallies: &[u64; TALLIES],
    shared: &[u32; SHARED],
) -> bool {
    // SAFETY: arrays of the right lengths, of which nothing else is asked; nothing is written.
    unsafe { raw::egretfold_log_check(log, marks, own, tallies, shared) }
}

/// Judges the number of an edition and a lease line: first day, days, elements owed
/// a day. 3, then 21.
#[inline]
pub fn score_lease(edition: u32, (first_day, days, owed): (u32, u32, u32)) -> u32 {
    // SAFETY: numbers alone.
    unsafe { raw::egretfold_score_lease(edition, first_day, days, owed) }
}

/// Of a lease line (first day, days, elements owed a day), for each of its days:
/// claimed and served, then zeros; month: served, owed and the verdict, 0 full, 1
/// short, 2 nothing owed. 21; then 18 or 19.
#[inline]
pub fn score_month(
    replay: &Replay,
    (first_day, days, owed): (u32, u32, u32),
    claimed: &mut [u64; DAYS],
    served: &mut [u64; DAYS],
    month: &mut [u64; 3],
) -> u32 {
    let Replay {
        log,
        marks,
        session,
    } = replay;
    let tallies = &session.tallies;
    // SAFETY: the arrays are a replay's that the library gave out; the three rooms
    // are apart from them and from each other.
    unsafe {
        raw::egretfold_score_month(
            log, marks, tallies, first_day, days, owed, claimed, served, month,
        )
    }
}

/// Of the number of an edition, logs that stand one behind the other, and four numbers a
/// station: its log's length, first day, days and elements owed a day. room, of 4
/// numbers: served, owed, silent days and the station with the smallest part, 64 where
/// none owes anything. 3, 11, 22; then the first station's 21, 18 or 19.
#[inline]
pub fn fleet_report(edition: u32, logs: &[u8], numbers: &[u64], room: &mut [u64]) -> u32 {
    let (length, count, room_length) = (logs.len(), numbers.len(), room.len());
    let (logs, numbers, room) = (logs.as_ptr(), numbers.as_ptr(), room.as_mut_ptr());
    // SAFETY: each pointer comes with its slice's length; the room is apart from both.
    unsafe { raw::egretfold_fleet_report(edition, logs, length, numbers, count, room, room_length) }
}

/// A growing report of the number of an edition, and no station. 3.
#[inline]
pub fn fleet_begin(edition: u32) -> Answer<Fleet> {
    let mut sums = [0; SUMS];
    // SAFETY: one room, of the right length.
    answer(unsafe { raw::egretfold_fleet_begin(&mut sums, edition) })?;
    Ok(Fleet { sums })
}

/// One station more, by its replay and a lease line: first day, days, elements owed a
/// day. 3 for a replay of another edition, 22, then 21, 18 or 19.
#[inline]
pub fn fleet_add(
    fleet: &mut Fleet,
    replay: &Replay,
    (first_day, days, owed): (u32, u32, u32),
) -> u32 {
    let Replay {
        log,
        marks,
        session: Session { own, tallies, .. },
    } = replay;
    let sums = &mut fleet.sums;
    // SAFETY: the numbers are a report's and the arrays a replay's that the library gave
    // out; they are apart.
    unsafe { raw::egretfold_fleet_add(sums, log, marks, own, tallies, first_day, days, owed) }
}

/// One station more, by its month's numbers. 22, then 21.
#[inline]
pub fn fleet_add_month(fleet: &mut Fleet, served: u64, owed: u64, silent: u64) -> u32 {
    // SAFETY: the numbers are a report's that the library gave out.
    unsafe { raw::egretfold_fleet_add_month(&mut fleet.sums, served, owed, silent) }
}

/// The other report's stations behind these. 3 for another edition, 22.
#[inline]
pub fn fleet_join(fleet: &mut Fleet, other: &Fleet) -> u32 {
    // SAFETY: both are a report's numbers that the library gave out, and apart.
    unsafe { raw::egretfold_fleet_join(&mut fleet.sums, &other.sums) }
}

/// room: served, owed, silent days, the station with the smallest part, and 1 where it
/// is one, 0 where none owes anything.
#[inline]
pub fn fleet_tell(fleet: &Fleet, room: &mut [u64; 5]) -> u32 {
    // SAFETY: two arrays of the right lengths, of which nothing else is asked.
    unsafe { raw::egretfold_fleet_tell(&fleet.sums, room) }
}

/// Whether the library takes these numbers as a growing report's.
#[inline]
pub fn fleet_check(sums: &[u64; SUMS]) -> bool {
    // SAFETY: an array of the right length, of which nothing else is asked; nothing is written.
    unsafe { raw::egretfold_fleet_check(sums) }
}

/// count: how many parameters a header announces. 2.
#[inline]
pub fn command_parameters(header: u32, count: &mut [u32; 1]) -> u32 {
    // SAFETY: one room, of the right length.
    unsafe { raw::egretfold_command_parameters(header, count) }
}

/// The command's words to the front of the room. written: how many. 2; then 3,
/// 4, 5, 6, 11.
#[inline]
pub fn command_write(
    header: u32,
    fields: &[u32; 4],
    room: &mut [u32],
    written: &mut [u32; 1],
) -> u32 {
    let (start, length) = (room.as_mut_ptr(), room.len());
    // SAFETY: start and length are one slice's; the two rooms are apart from each
    // other and from the fields.
    unsafe { raw::egretfold_command_write(header, fields, start, length, written) }
}

/// window: row step and span. 3 or 6.
#[inline]
pub fn layout(layout: &Layout, window: &mut [u32; 2]) -> u32 {
    let l = layout;
    // SAFETY: one room, of the right length.
    unsafe { raw::egretfold_layout(l.base, l.pitch, l.height, l.size, l.tiled, window) }
}

/// address: where the element at (x, y) begins, and its run. 3, 6 or 10.
#[inline]
pub fn translate(layout: &Layout, x: u32, y: u32, address: &mut [u32; 2]) -> u32 {
    let l = layout;
    // SAFETY: one room, of the right length.
    unsafe { raw::egretfold_translate(l.base, l.pitch, l.height, l.size, l.tiled, x, y, address) }
}

/// pair: x, y and the byte's place in the element. 3, 6 or 12.
#[inline]
pub fn locate(layout: &Layout, address: u32, pair: &mut [u32; 3]) -> u32 {
    let l = layout;
    // SAFETY: one room, of the right length.
    unsafe { raw::egretfold_locate(l.base, l.pitch, l.height, l.size, l.tiled, address, pair) }
}

/// bytes: the element's, then zeros. 3, 6, 10 or 11.
#[inline]
pub fn element_read(
    layout: &Layout,
    x: u32,
    y: u32,
    memory: &[u8],
    first: u32,
    bytes: &mut [u8; 16],
) -> u32 {
    let l = layout;
    let (start, length) = (memory.as_ptr(), memory.len());
    // SAFETY: start and length are one slice's; the room is apart from it.
    unsafe {
        raw::egretfold_element_read(
            l.base, l.pitch, l.height, l.size, l.tiled, x, y, start, length, first, bytes,
        )
    }
}

/// Stores `data` as the element at (x, y). 3, 6, 10 or 11.
#[inline]
pub fn element_write(
    layout: &Layout,
    x: u32,
    y: u32,
    memory: &mut [u8],
    first: u32,
    data: &[u8],
) -> u32 {
    let l = layout;
    let (start, length) = (memory.as_mut_ptr(), memory.len());
    let (data, data_length) = (data.as_ptr(), data.len());
    // SAFETY: both pointers come with their own slice's length; the memory, which
    // is written, is apart from the data.
    unsafe {
        raw::egretfold_element_write(
            l.base,
            l.pitch,
            l.height,
            l.size,
            l.tiled,
            x,
            y,
            start,
            length,
            first,
            data,
            data_length,
        )
    }
}

/// Of the window (base, format word, height): bytes: the four elements', then
/// zeros; count: how many bytes are theirs. 3, 6, 10 or 11.
#[inline]
pub fn element_superfine(
    window: (u32, u32, u32),
    x: u32,
    y: u32,
    memory: &[u8],
    first: u32,
    bytes: &mut [u8; 16],
    count: &mut [u32; 1],
) -> u32 {
    let (base, format, height) = window;
    let (start, length) = (memory.as_ptr(), memory.len());
    // SAFETY: start and length are one slice's; the two rooms are apart from it
    // and from each other.
    unsafe {
        raw::egretfold_element_superfine(
            base, format, height, x, y, start, length, first, bytes, count,
        )
    }
}

/// passed: 1 if the session's test passes at (x, y), else 0. 7, 3, 10 or 11.
#[inline]
pub fn conditional_test(
    session: &Session,
    value: u32,
    (x, y): (u32, u32),
    memory: &[u8],
    first: u32,
    passed: &mut [u32; 1],
) -> u32 {
    let shared = &session.shared;
    let (start, length) = (memory.as_ptr(), memory.len());
    // SAFETY: the array is a session's that the library gave out; start and length
    // are one slice's; the room is apart from both.
    unsafe { raw::egretfold_conditional_test(shared, value, x, y, start, length, first, passed) }
}

/// The session's test at all pairs of a domain, i0, j0, i1, j1. room: a byte 1 or 0
/// for each, row by row; passed: how many pass. 7, 3, 5, 10 or 11.
#[inline]
pub fn conditional_survey(
    session: &Session,
    value: u32,
    domain: [u32; 4],
    memory: &[u8],
    first: u32,
    room: &mut [u8],
    passed: &mut [u32; 1],
) -> u32 {
    let shared = &session.shared;
    let [i0, j0, i1, j1] = domain;
    let (start, length) = (memory.as_ptr(), memory.len());
    let (bytes, count) = (room.as_mut_ptr(), room.len());
    // SAFETY: the array is a session's that the library gave out; start and length
    // are one slice's, bytes and count another's; the two rooms are apart from both
    // and from each other.
    unsafe {
        raw::egretfold_conditional_survey(
            shared, value, i0, j0, i1, j1, start, length, first, bytes, count, passed,
        )
    }
}

/// The room's elements, row by row, to the rectangle's pairs in the memory. 3, 6, 10
/// or 11.
#[inline]
pub fn picture_paint(
    layout: &Layout,
    rectangle: &Rectangle,
    memory: &mut [u8],
    first: u32,
    room: &[u8],
) -> u32 {
    let (l, r) = (layout, rectangle);
    let (start, length) = (memory.as_mut_ptr(), memory.len());
    let (bytes, count) = (room.as_ptr(), room.len());
    // SAFETY: start and length are one slice's, which nothing else can share; bytes
    // and count are another's.
    unsafe {
        raw::egretfold_picture_paint(
            l.base, l.pitch, l.height, l.size, l.tiled, r.x, r.y, r.columns, r.rows, start, length,
            first, bytes, count,
        )
    }
}

/// room: the elements of the rectangle's pairs, row by row. 3, 6, 10 or 11.
#[inline]
pub fn picture_copy_out(
    layout: &Layout,
    rectangle: &Rectangle,
    memory: &[u8],
    first: u32,
    room: &mut [u8],
) -> u32 {
    let (l, r) = (layout, rectangle);
    let (start, length) = (memory.as_ptr(), memory.len());
    let (bytes, count) = (room.as_mut_ptr(), room.len());
    // SAFETY: start and length are one slice's; bytes and count are another's, which
    // nothing else can share.
    unsafe {
        raw::egretfold_picture_copy_out(
            l.base, l.pitch, l.height, l.size, l.tiled, r.x, r.y, r.columns, r.rows, start, length,
            first, bytes, count,
        )
    }
}

/// addresses: where the elements of as many pairs begin, from (x, y) on in the row.
/// 3, 6 or 10.
#[inline]
pub fn picture_row(layout: &Layout, x: u32, y: u32, addresses: &mut [u32]) -> u32 {
    let l = layout;
    let (start, columns) = (addresses.as_mut_ptr(), addresses.len());
    // SAFETY: start and columns are one slice's.
    unsafe {
        raw::egretfold_picture_row(
            l.base, l.pitch, l.height, l.size, l.tiled, x, y, start, columns,
        )
    }
}

/// Loads a program into a store. slots: how many run. 15.
#[inline]
pub fn program_load(
    words: &[u32],
    firsts: &mut [u32; SLOTS],
    seconds: &mut [u32; SLOTS],
    slots: &mut [u32; 1],
) -> u32 {
    let (start, length) = (words.as_ptr(), words.len());
    // SAFETY: start and length are one slice's; the rooms are apart from it and
    // from each other.
    unsafe { raw::egretfold_program_load(start, length, firsts, seconds, slots) }
}

/// cells: a fresh group's, in the mode of this number, 0 full or 1 partial. 13.
#[inline]
pub fn group_begin(size: u32, mode: u32, cells: &mut [u32; CELLS]) -> u32 {
    // SAFETY: one room, of the right length; no state is read.
    unsafe { raw::egretfold_group_begin(size, mode, cells) }
}

/// One step under the masks (alu, predicate, booleans) and the integer words.
/// taken: 1 for a jump, 0 for a stay; and the next position. 13 to 16.
#[inline]
pub fn group_step(
    group: &mut Group,
    program: &Program,
    masks: (u32, u32, u32),
    integers: &[u32],
    taken: &mut [u32; 2],
) -> u32 {
    let (alu, predicate, booleans) = masks;
    let store = program.store();
    let (words, numbers) = (integers.as_ptr(), integers.len());
    // SAFETY: the cells are a group's and the store a program's that the library
    // gave out; the cells and the room are apart; words and numbers are one
    // slice's.
    unsafe {
        raw::egretfold_group_step(
            &store.firsts,
            &store.seconds,
            program.slots(),
            &mut group.cells,
            alu,
            predicate,
            booleans,
            words,
            numbers,
            taken,
        )
    }
}

/// Steps up to the end of the masks or of the program. report: steps, the first
/// active processor, how many are active. 13 to 16.
#[inline]
pub fn group_run(
    group: &mut Group,
    program: &Program,
    masks: &[u32],
    booleans: u32,
    integers: &[u32],
    report: &mut [u64; 3],
) -> u32 {
    let store = program.store();
    let (start, length) = (masks.as_ptr(), masks.len());
    let (words, numbers) = (integers.as_ptr(), integers.len());
    // SAFETY: as for a step; start and length are one slice's too.
    unsafe {
        raw::egretfold_group_run(
            &store.firsts,
            &store.seconds,
            program.slots(),
            &mut group.cells,
            start,
            length,
            booleans,
            words,
            numbers,
            report,
        )
    }
}

/// loops: the aL shown, then kind, count and aL of each of four loops, the
/// innermost first. Refuses nothing.
#[inline]
pub fn group_loops(group: &Group, loops: &mut [u32; 13]) {
    // SAFETY: the cells are a group's that the library gave out, and apart from
    // the room.
    unsafe { raw::egretfold_group_loops(&group.cells, loops) }
}

/// Whether the library takes these cells as a group's.
#[inline]
pub fn group_check(cells: &[u32; CELLS]) -> bool {
    // SAFETY: an array of the right length, of which nothing else is asked; nothing is written.
    unsafe { raw::egretfold_group_check(cells) }
}

/// Kills the active processors that have a channel under the write mask less than
/// zero; the registers are four floats for each processor of the starting group.
/// killed: those who were killed now. 16, 13 or 11.
#[inline]
pub fn group_kill(
    group: &mut Group,
    program: &Program,
    mask: u32,
    registers: &[f32],
    killed: &mut [u32; 1],
) -> u32 {
    let (start, floats) = (registers.as_ptr(), registers.len());
    // SAFETY: the cells are a group's that the library gave out; the cells and the
    // room are apart; start and floats are one slice's.
    unsafe {
        raw::egretfold_group_kill(
            program.slots(),
            &mut group.cells,
            mask,
            start,
            floats,
            killed,
        )
    }
}

/// maximum: of two registers, channel by channel, each channel as its bits. Refuses
/// nothing.
#[inline]
pub fn register_maximum(a: &[u32; CHANNELS], b: &[u32; CHANNELS], maximum: &mut [u32; CHANNELS]) {
    // SAFETY: three arrays of the right length; the one that is written is apart.
    unsafe { raw::egretfold_register_maximum(a, b, maximum) }
}

/// choice: between two registers by a third one, channel by channel, each channel as
/// its bits. Refuses nothing.
#[inline]
pub fn register_choice(
    a: &[u32; CHANNELS],
    b: &[u32; CHANNELS],
    third: &[u32; CHANNELS],
    choice: &mut [u32; CHANNELS],
) {
    // SAFETY: four arrays of the right length; the one that is written is apart.
    unsafe { raw::egretfold_register_choice(a, b, third, choice) }
}
