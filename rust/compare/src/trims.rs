//! Cases of the fifteenth kind: a log, of days or of years, is given in pieces to a replay of the product and to the
//! second program's, and both are trimmed at the same places, also inside commands and records. Beside them one of
//! the second program takes all midnights and is never trimmed: whatever it answers the trimmed ones answer, each of
//! its days from the kept one on is theirs, and so is each score of a lease that begins there or later.

use crate::case::{Agreed, Agreement, Case};
use crate::editions;
use crate::logs;
use crate::random::Random;
use crate::records;
use crate::scores;
use egretfold::{Edition, Lease as ProductLease, Replay as Product};
use second::log::{Day, Fed, Part, Replay as Second};
use second::score::Lease;

/// "at most 400 come in all"
const MOST_MIDNIGHTS: usize = 400;

/// Lease lines that each end is scored against.
const LEASES: u32 = 4;

/// The replays of a log that is given to all of them.
struct Three {
    product: Product,
    /// The second program's, trimmed where the product's is.
    trimmed: Second,
    /// And one that is never trimmed, and needs no trim.
    whole: Second,
    /// Midnights that the trimmed ones have forgotten.
    forgotten: usize,
}

pub fn run(case: &mut Case) -> Agreement {
    let edition = editions::any(case);
    let log = if case.random.once_in(16) {
        years(&mut case.random)
    } else {
        records::any(&mut case.random)
    };
    let mut three = Three::new(edition);
    let length = case.random.one_of(&[1, 7, 64, 1_000]);
    // Byte after byte only of short ones.
    let length = length.max(log.len() as u32 / 60);
    // How often it is trimmed: behind each piece, or behind a few.
    let every = case.random.one_of(&[1, 2, 5]);
    let mut left = log.as_slice();
    while !left.is_empty() {
        let most = (left.len() as u32).min(length);
        let (piece, rest) = left.split_at(case.random.between(0, most) as usize);
        if !three.feed(case, piece, &log)? {
            case.tally.mark("logs stopped at their 401st midnight");
            return Ok(());
        }
        if case.random.once_in(every) {
            three.trim(case, &log)?;
        }
        left = rest;
    }
    three.agree(case, &log)?;
    three.count(case);
    for _ in 0..LEASES {
        three.score(case, &log)?;
    }
    Ok(())
}

/// A log of more midnights than one replay takes, with words between some of them.
fn years(random: &mut Random) -> Vec<u8> {
    let words = crate::words::any(random);
    let first = random.below(40_000);
    let days = random.between(401, 1_200);
    let mut left = words.as_slice();
    let mut log = Vec::new();
    for day in first..first + days {
        let most = (left.len() as u32).min(6);
        let (some, rest) = left.split_at(random.between(0, most) as usize);
        some.iter()
            .for_each(|word| log.extend(records::record(records::WORD, *word)));
        log.extend(records::record(records::MIDNIGHT, day));
        left = rest;
    }
    left.iter()
        .for_each(|word| log.extend(records::record(records::WORD, *word)));
    log
}

impl Three {
    fn new(edition: Edition) -> Three {
        let number = edition.number();
        Three {
            product: Product::new(edition),
            trimmed: Second::new_in(number).expect("an edition of document 02"),
            whole: Second::without_end(number).expect("an edition of document 02"),
            forgotten: 0,
        }
    }

    /// A piece, which all answer alike; no where the trimmed ones had no room for a midnight
    /// and the other went on, which is the one way to differ.
    fn feed(&mut self, case: &mut Case, piece: &[u8], log: &[u8]) -> Agreed<bool> {
        let fed = self.product.feed(piece);
        let product = Fed {
            taken: fed.taken,
            refusal: fed.refusal.map(u32::from),
        };
        let asked = || format!("piece {piece:X?} of {log:X?}, trimmed on the way");
        case.agree(asked, &product, &self.trimmed.feed(piece))?;
        let whole = self.whole.feed(piece);
        let full = product.refusal == Some(19) && self.trimmed.days().len() == MOST_MIDNIGHTS;
        if full && whole != product {
            return Ok(false);
        }
        let asked = || format!("{} beside one that isn't trimmed", asked());
        case.agree(asked, &product, &whole)?;
        Ok(true)
    }

    /// Trims both, which changes nothing but what is kept of the days; the check takes
    /// what is left, and trimmed again it stays as it is.
    fn trim(&mut self, case: &mut Case, log: &[u8]) -> Agreement {
        let unfinished = self.trimmed.unfinished();
        let forgotten = self.trimmed.days().len().saturating_sub(1);
        let asked = || format!("a trim inside {log:X?}");
        case.agree(asked, &(self.product.trim() as usize), &forgotten)?;
        self.trimmed.trim();
        self.forgotten += forgotten;
        case.tally.mark("trims");
        if unfinished > 0 {
            case.tally.mark("trims inside a record");
        }
        if self.trimmed.session().open().is_some() {
            case.tally.mark("trims inside a command");
        }
        let again = Product::from_bytes(&self.product.to_bytes());
        case.agree(asked, &again.as_ref(), &Some(&self.product))?;
        let mut twice = self.product.clone();
        case.agree(asked, &twice.trim(), &0)?;
        case.agree(asked, &twice, &self.product)?;
        if case.random.once_in(8) {
            self.agree(case, log)?;
        }
        Ok(())
    }

    /// All that can be asked of the trimmed ones is the same, and their days are the last of
    /// the whole one's.
    fn agree(&self, case: &mut Case, log: &[u8]) -> Agreement {
        let asked = || format!("{log:X?}, trimmed on the way");
        logs::agree(case, &self.product, &self.trimmed, asked)?;
        let number = |part: egretfold::Part| Part {
            runs: part.runs,
            claims: part.claims,
        };
        let days = self.product.days().map(|day| Day {
            number: day.number,
            part: number(day.part),
        });
        let days: Vec<Day> = days.collect();
        let due = self.whole.days().iter().skip(self.forgotten).copied();
        case.agree(asked, &days, &due.collect())?;
        // The host adds what was forgotten, and has the refused word's place in the log, as long as the word's day
        // is there.
        let forgotten = self.forgotten as u64;
        let word = self.product.status().refused;
        let record = word.and_then(|word| word.record_after(forgotten));
        let whole = self.whole.refused();
        let there = whole.filter(|word| forgotten == 0 || word.midnights > self.forgotten);
        case.agree(asked, &record, &there.map(|word| word.record))?;
        let number = word.map(|word| u32::from(word.refusal));
        case.agree(asked, &number, &whole.map(|word| word.number))?;
        let words = self.product.session().status().taken;
        case.agree(asked, &u64::from(words), &self.whole.session().taken())
    }

    /// A lease that begins on the kept day or later is scored as by the one that kept all days.
    fn score(&self, case: &mut Case, log: &[u8]) -> Agreement {
        let mut lease = scores::lease(&mut case.random, &self.trimmed);
        let kept = self.trimmed.days().first().map_or(0, |day| day.number);
        if lease.first_day < kept {
            case.tally.mark("leases moved to the kept day");
            lease.first_day = kept;
        }
        let expected = lease.month(&self.whole);
        let asked = || format!("{lease:?} and log {log:X?}, trimmed on the way");
        case.agree(asked, &lease.month(&self.trimmed), &expected)?;
        let Lease {
            first_day,
            days,
            owed,
        } = lease;
        if let Ok(accepted) = ProductLease::new(first_day, days, owed) {
            let month = self.product.score(&accepted).map(scores::of_product);
            case.agree(asked, &month.map_err(u32::from), &expected)?;
            case.tally.mark("leases scored");
            if expected.map_or(false, |month| month.served > 0) {
                case.tally.mark("leases served from the kept day on");
            }
        }
        Ok(())
    }

    /// What the log was, for the tests to look at.
    fn count(&self, case: &mut Case) {
        let tally = &mut *case.tally;
        tally.answer(self.trimmed.stopped().unwrap_or(0));
        if let Some(word) = self.trimmed.refused() {
            tally.answer(word.number);
        }
        tally.add("midnights forgotten", self.forgotten as u64);
        if self.whole.days().len() > MOST_MIDNIGHTS {
            tally.mark("logs of more than 400 midnights");
        }
    }
}
