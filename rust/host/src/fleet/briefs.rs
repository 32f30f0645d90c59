//! The cards of a fleet: each stands in a spool, and in memory nothing but what they are counted, ordered and compared by.

use crate::common::digest::Finished;
use crate::fleet::kept::{Kept, Total};
use crate::fleet::spool::Spool;
use crate::score::month::Served;
use std::io;

/// What is kept in memory of a card: 72 bytes.
pub struct Brief {
    /// The card's place in the fleet, and where it stands in the spool.
    place: u32,
    at: u64,
    pub end: End,
    /// Of the log's bytes, where there is a score.
    pub digest: Option<Finished>,
    /// Days of its month.
    pub dark: u8,
    pub full: u8,
    pub has_lessee: bool,
}

/// What came of a station's log.
pub enum End {
    Scored(Total),
    Refused,
    NotScored,
}

impl Brief {
    fn of(card: &Kept, place: usize, at: u64) -> Brief {
        let scored = card.scored();
        // A lease has 31 days at most.
        let days = |kind| scored.map_or(0, |scored| scored.count(kind) as u8);
        Brief {
            // A lease file has fewer bytes than that.
            place: place as u32,
            at,
            end: match scored {
                Some(scored) => End::Scored(scored.total),
                None if card.is_unread() => End::NotScored,
                None => End::Refused,
            },
            digest: scored.and_then(|scored| scored.digest),
            dark: days(Served::Dark),
            full: days(Served::InFull),
            has_lessee: card.issue().lessee.is_some(),
        }
    }

    pub fn total(&self) -> Option<&Total> {
        match &self.end {
            End::Scored(total) => Some(total),
            End::Refused | End::NotScored => None,
        }
    }
}

/// Cards by their places in the fleet.
pub struct Cards {
    spool: Spool,
    briefs: Vec<Brief>,
}

impl Cards {
    /// None yet, of so many that are due.
    pub fn new(spool: Spool, due: usize) -> Cards {
        Cards {
            spool,
            briefs: Vec::with_capacity(due),
        }
    }

    /// Each place gets one card, in whatever order.
    pub fn put(&mut self, place: usize, card: &Kept) -> io::Result<()> {
        let at = self.spool.put(card)?;
        self.briefs.push(Brief::of(card, place, at));
        Ok(())
    }

    /// Asked when all are there: from now on a brief stands at its place.
    pub fn in_places(mut self) -> Cards {
        self.briefs.sort_unstable_by_key(|brief| brief.place);
        self
    }

    pub fn briefs(&self) -> &[Brief] {
        &self.briefs
    }

    /// What each card is called by, in the order of their places.
    pub fn names<'a>(
        &'a self,
        name: impl Fn(&Kept) -> String + 'a,
    ) -> impl Iterator<Item = io::Result<String>> + 'a {
        self.all().map(move |card| Ok(name(&card?)))
    }

    /// In the order of their places.
    pub fn all(&self) -> impl Iterator<Item = io::Result<Kept>> + '_ {
        (0..self.briefs.len()).map(|place| self.get(place))
    }

    pub fn get(&self, place: usize) -> io::Result<Kept> {
        let (card, _) = self.spool.get(self.briefs[place].at)?;
        Ok(card)
    }
}
