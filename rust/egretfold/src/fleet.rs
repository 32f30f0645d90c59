//! The months of several stations in one report: of up to 64 logs at once, or of any
//! number of stations, one after another.

use crate::lengths::SUMS;
use crate::{answer, lent, Answer, Edition, Lease, Replay};

/// The most stations that a report takes; as a station it means that none owes
/// anything.
pub const MOST_STATIONS: usize = 64;

/// What the months of some stations come to.
#[derive(Clone, Copy, Debug, PartialEq, Eq)]
pub struct FleetReport {
    pub served: u64,
    pub owed: u64,
    /// Days that owe more than 0 and are served 0.
    pub silent_days: u64,
    /// The station whose served part is smallest, counted from 0, the lower one where
    /// two are the same; none where no station owes anything.
    pub station: Option<usize>,
}

/// The report of these logs, which stand one behind the other, of a length and a lease
/// line each; every log is replayed and scored by itself. 11 where the lengths don't add
/// up to that of the logs, 22 for more than [`MOST_STATIONS`], then the first station's
/// 18 or 19.
pub fn fleet_report(
    edition: Edition,
    logs: &[u8],
    stations: &[(usize, Lease)],
) -> Answer<FleetReport> {
    let numbers = |(length, lease): &(usize, Lease)| {
        let line = [lease.first_day(), lease.days(), lease.owed()].map(u64::from);
        [*length as u64, line[0], line[1], line[2]]
    };
    let numbers: Vec<u64> = stations.iter().flat_map(numbers).collect();
    let mut room = [0; 4];
    let number = lent::fleet_report(edition.number(), logs, &numbers, &mut room);
    answer(number)?;
    let [served, owed, silent_days, station] = room;
    Ok(FleetReport {
        served,
        owed,
        silent_days,
        station: (station < MOST_STATIONS as u64).then_some(station as usize),
    })
}

/// A report that grows: stations are added one by one, numbered from 0 in their order, or
/// by another report's being put behind it. It keeps sums alone, and so has the same size for
/// any number of stations; there are 2^32 at most. Its numbers are private, so that it
/// is always one that the library gave out. A refusal changes nothing.
///
/// ```
/// use egretfold::{Edition, Fleet, Lease, Replay};
///
/// let mut replay = Replay::new(Edition::First);
/// replay.feed(&[2, 101, 0, 0, 0]);
/// let mut fleet = Fleet::new(Edition::First);
/// fleet.add_month(300, 500, 0)?;
/// fleet.add(&replay, Lease::new(101, 1, 500)?)?;
/// let told = fleet.tell();
/// assert_eq!((told.stations, told.served, told.owed), (2, 300, 1000));
/// assert_eq!((told.silent_days, told.station), (1, Some(1)));
/// # Ok::<(), egretfold::Refusal>(())
/// ```
#[derive(Clone, Debug, PartialEq, Eq)]
pub struct Fleet {
    pub(crate) sums: [u64; SUMS],
}

/// What the months so far come to.
#[derive(Clone, Copy, Debug, PartialEq, Eq)]
pub struct FleetTold {
    /// How many stations were added.
    pub stations: u64,
    pub served: u64,
    pub owed: u64,
    /// Days that owe more than 0 and are served 0.
    pub silent_days: u64,
    /// The station whose served part is smallest, as in a [`FleetReport`]: station 64 is
    /// one like another here.
    pub station: Option<u64>,
}

/// Which of a growing report's numbers says how many stations it has.
const COUNT: usize = 1;

impl Fleet {
    /// A report of an edition, and no station.
    #[inline]
    pub fn new(edition: Edition) -> Fleet {
        lent::fleet_begin(edition.number()).expect("both editions are accepted")
    }

    /// Adds the month of a replay under a lease line. 3 where the replay is of another
    /// edition, 22 for more than 2^32 stations, then 18 or 19 where it stopped the replay.
    #[inline]
    pub fn add(&mut self, replay: &Replay, lease: Lease) -> Answer<()> {
        let line = (lease.first_day(), lease.days(), lease.owed());
        answer(lent::fleet_add(self, replay, line))
    }

    /// Adds a month by its numbers, as [`Replay::score`] has them: what was served and owed
    /// in all, and the silent days. The replay is to be of this report's edition. 22, then 21
    /// where no month has such numbers: it owes at most 3,100,000,000 elements, is
    /// served no more than it owes, and has at most 31 silent days.
    #[inline]
    pub fn add_month(&mut self, served: u64, owed: u64, silent: u64) -> Answer<()> {
        answer(lent::fleet_add_month(self, served, owed, silent))
    }

    /// Puts the other's stations behind these: they are numbered on. 3 for another edition,
    /// 22 for more than 2^32 stations together.
    #[inline]
    pub fn join(&mut self, other: &Fleet) -> Answer<()> {
        answer(lent::fleet_join(self, other))
    }

    /// What the stations so far come to.
    pub fn tell(&self) -> FleetTold {
        let mut room = [0; 5];
        lent::fleet_tell(self, &mut room);
        let [served, owed, silent_days, station, named] = room;
        FleetTold {
            stations: self.sums[COUNT],
            served,
            owed,
            silent_days,
            station: (named == 1).then_some(station),
        }
    }
}
