//! Safe Rust over Egretfold's C boundary (include/egretfold.h).
//!
//! The product is a static library. It allocates nothing and keeps nothing
//! between calls: all state lies in arrays that the caller lends. This crate
//! owns those arrays, so that a state is always one that the library gave out,
//! and hands answers back as Rust values. It has three floors:
//!
//! * `raw`, private: the header's declarations, one for one;
//! * [`lent`]: the same functions made safe, with the caller's own rooms. All
//!   `unsafe` of the Rust side is there. For callers who want to see what a
//!   refused call left in a room;
//! * this page: the comfortable functions and types, which most callers want.
//!
//! [`headers`] has the commands' header words by name, [`lengths`] the arrays' lengths.
//!
//! A state may be kept elsewhere, on disk say: [`Session`], [`Pair`], [`Replay`], [`Group`] and [`Fleet`]
//! have `to_bytes`, and `from_bytes`, which asks the library's own check and gives a state only
//! where that says yes: what then comes can't be harmed by bytes that were.
//!
//! A refused call answers with a [`Refusal`], as the `Err` of an [`Answer`]: it has
//! document 01's number and its cause. No call panics, whatever it is given, except
//! the two that say so: [`Program::slot`] and [`Group::counter`] of a number that
//! is out of their bounds.
//!
//! Document 01's whole stream, and where its output's last element lies:
//!
//! ```
//! use egretfold::headers::{SET_DOMAIN, SET_INST_FMT, SET_OUT_FMT, START_PROGRAM};
//! use egretfold::{locate, translate, Edition, Layout, Session};
//!
//! let mut session = Session::new(Edition::First);
//! let fed = session.feed(&[
//!     SET_INST_FMT, 0x1000, 0x0400_0010,
//!     SET_OUT_FMT, 0, 0x800, 0x0201_0064, 18,
//!     SET_DOMAIN, 0, 0, 95, 17,
//!     START_PROGRAM, 0,
//! ]);
//! assert_eq!((fed.taken, fed.commands, fed.refusal), (15, 4, None));
//! assert_eq!((session.runs(), session.claims()), (1, 96 * 18));
//!
//! let output = Layout { base: 0x800, pitch: 100, height: 18, size: 4, tiled: true };
//! let last = translate(&output, 95, 17)?;
//! assert_eq!(locate(&output, last.address + 1)?, (95, 17, 1));
//! # Ok::<(), egretfold::Refusal>(())
//! ```

#![deny(unsafe_op_in_unsafe_fn)]

mod command;
mod edition;
mod element;
mod fleet;
mod flow;
pub mod headers;
mod kept;
mod layout;
pub mod lengths;
pub mod lent;
mod log;
mod pair;
mod picture;
mod raw;
mod refusal;
mod register;
mod score;
mod session;
mod view;

pub use command::{parameters, write_command, Command};
pub use edition::Edition;
pub use element::{read, superfine, write, Element};
pub use fleet::{fleet_report, Fleet, FleetReport, FleetTold, MOST_STATIONS};
pub use flow::{Group, Loop, Loops, Mode, Program, Report, Stepped};
pub use layout::{layout, locate, translate, Layout, Translated, Window};
pub use log::{BytesFed, Day, LogStatus, Part, RefusedWord, Replay};
pub use pair::{Owned, Owners, Pair, Party};
pub use picture::{copy_out, paint, translate_row, Rectangle};
pub use refusal::Refusal;
pub use register::{choice, maximum, Register};
pub use score::{Lease, Month, ScoredDay, Verdict};
pub use session::{Fed, Format, Reply, Session, Status};
pub use view::View;

/// What a call answers: its result, or why it was refused.
pub type Answer<T> = Result<T, Refusal>;

/// Where the static library stands that this crate was linked with, for callers
/// who link another program with the same one.
pub const ARCHIVE: &str = env!("EGRETFOLD_ARCHIVE");

/// The Rattle kit that proved that library, as `rt version` named it when the library
/// was built; empty where no record of it stands beside the library.
pub const KIT: &str = env!("EGRETFOLD_KIT");

/// A returned number as an answer: 0 says that the call was accepted.
#[inline]
fn answer(number: u32) -> Answer<()> {
    match number {
        0 => Ok(()),
        number => Err(refused(number)),
    }
}

/// The same for calls that then make a value of what stands in a room: what a refusal needs stands apart, so that it
/// isn't in the way of accepted calls.
#[inline]
fn accepted(number: u32) -> Answer<()> {
    #[cold]
    #[inline(never)]
    fn rare(number: u32) -> Refusal {
        refused(number)
    }
    match number {
        0 => Ok(()),
        number => Err(rare(number)),
    }
}

/// A returned number that isn't 0. The library returns no other numbers than those
/// that [`Refusal`] has, which tools/declarations holds against its source.
#[inline]
fn refused(number: u32) -> Refusal {
    match Refusal::with_number(number) {
        Some(refusal) => refusal,
        None => unreachable!("the library has no refusal {number}"),
    }
}
