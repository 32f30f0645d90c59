//! What can be asked of a party: the one of a session, or either of a pair.

use crate::lengths::{OWN, SHARED, TALLIES};
use crate::{answer, lent, Answer, Edition, Format, Owned, Status};

/// A party's own part of a state and the settings that it is asked about with.
#[derive(Clone, Copy, Debug)]
pub struct View<'a> {
    pub(crate) own: &'a [u32; OWN],
    pub(crate) tallies: &'a [u64; TALLIES],
    pub(crate) shared: &'a [u32; SHARED],
    pub(crate) owned: Owned,
}

impl View<'_> {
    /// The numbers that the party owns. Settings of others can be asked for too.
    #[inline]
    pub fn owned(&self) -> Owned {
        self.owned
    }

    #[inline]
    pub fn status(&self) -> Status {
        let mut status = [0; 6];
        lent::session_status(*self, &mut status);
        let [taken, stopped, header, parameters, readiness, edition] = status;
        Status {
            taken,
            stopped: stopped != 0,
            // No header of the table is 0, so 0 says that none is open.
            open: set(header, (header, parameters)),
            readiness,
            edition: match edition {
                1 => Edition::First,
                2 => Edition::Second,
                other => unreachable!("the library has no edition {other}"),
            },
        }
    }

    /// Starts that passed.
    #[inline]
    pub fn runs(&self) -> u64 {
        self.counts()[0]
    }

    /// The elements that those starts claimed.
    #[inline]
    pub fn claims(&self) -> u64 {
        self.counts()[1]
    }

    #[inline]
    fn counts(&self) -> [u64; 2] {
        let mut counts = [0; 2];
        lent::session_tallies(*self, &mut counts);
        counts
    }

    /// i0, j0, i1, j1, both ends included.
    #[inline]
    pub fn domain(&self) -> Option<[u32; 4]> {
        let mut domain = [0; 5];
        lent::session_domain(*self, &mut domain);
        set(domain[0], [domain[1], domain[2], domain[3], domain[4]])
    }

    /// The format that the command with this header set; for inputs and outputs
    /// the one with this number, else the number is not looked at. 2 for a header
    /// that sets no format; 4.
    #[inline]
    pub fn format(&self, header: u32, number: u32) -> Answer<Option<Format>> {
        let mut room = [0; 4];
        answer(lent::session_format(*self, header, number, &mut room))?;
        let [is_set, base, format, height] = room;
        let format = Format {
            base,
            format,
            height,
        };
        Ok(set(is_set, format))
    }

    /// The mask of all outputs, also of those that another party owns.
    #[inline]
    pub fn output_mask(&self) -> u32 {
        self.masks()[0]
    }

    #[inline]
    pub fn conditional_mask(&self) -> Option<u32> {
        let masks = self.masks();
        set(masks[1], masks[2])
    }

    #[inline]
    pub fn test(&self) -> Option<u32> {
        let masks = self.masks();
        set(masks[3], masks[4])
    }

    #[inline]
    fn masks(&self) -> [u32; 5] {
        let mut masks = [0; 5];
        lent::session_masks(*self, &mut masks);
        masks
    }
}

/// The value of a setting, where its mark says that it is set.
#[inline]
fn set<T>(mark: u32, value: T) -> Option<T> {
    if mark == 0 {
        None
    } else {
        Some(value)
    }
}
