//! Cases of the sixth kind: a station's log is given whole to the second program,
//! and to the product whole and cut at random bytes, single ones also by the
//! function for one byte. Answers, days, settings and
//! tallies are compared, then what later bytes get.

use crate::case::{Agreed, Agreement, Case};
use crate::editions;
use crate::records;
use crate::settings;
use crate::starts;
use egretfold::{lent, Edition, Replay as Product};
use second::log::{Fed, Part, RefusedWord, Replay as Second};

/// All that can be asked of a replay, from either program.
#[derive(Clone, Debug, PartialEq, Eq)]
struct Seen {
    stopped: Option<u32>,
    refused: Option<RefusedWord>,
    unfinished: usize,
    /// The first day and the last one.
    ends: Option<(u32, u32)>,
    /// The numbers of all days.
    days: Vec<u32>,
    /// Part 0, the days' parts, and one past the last day.
    parts: Vec<Part>,
    session: settings::Seen,
}

pub fn run(case: &mut Case) -> Agreement {
    let edition = editions::any(case);
    let log = records::any(&mut case.random);
    let mut second = Second::new_in(edition.number()).expect("an edition of document 02");
    let expected = second.feed(&log);
    let mut product = Product::new(edition);
    let asked = || format!("log {log:X?}");
    case.agree(asked, &fed(&mut product, &log), &expected)?;
    agree(case, &product, &second, asked)?;
    let cut = fed_in_pieces(case, edition, &log, expected)?;
    agree(case, &cut, &second, || format!("log {log:X?} in pieces"))?;
    count(case, &log, &second);
    starts::of_words(case.tally, words(&log[..expected.taken as usize]));
    editions::refuse_replay(case, &cut, edition)?;
    later_bytes(case, cut, second, &log)
}

/// A piece by the function for pieces, whatever its length.
fn fed(product: &mut Product, bytes: &[u8]) -> Fed {
    let mut taken = [0];
    let number = lent::log_feed(product, bytes, &mut taken);
    Fed {
        taken: taken[0],
        refusal: (number != 0).then_some(number),
    }
}

/// All that can be asked of a replay.
pub fn agree(
    case: &mut Case,
    product: &Product,
    second: &Second,
    asked: impl Fn() -> String,
) -> Agreement {
    let asked = || format!("replay after {}", asked());
    let past = past_the_last(case, second);
    let (product, second) = (of_product(product, past), of_second(second));
    case.agree(asked, &product, &second)
}

/// The number of a part that no log has come to.
fn past_the_last(case: &mut Case, second: &Second) -> u32 {
    let days = second.days().len() as u32;
    match case.random.below(4) {
        0 => u32::MAX - case.random.below(2),
        1 => case.random.between(401, 1_000),
        _ => days + 1,
    }
}

fn of_product(product: &Product, past: u32) -> Seen {
    let status = product.status();
    let part = |number| {
        let part = product.part(number);
        Part {
            runs: part.runs,
            claims: part.claims,
        }
    };
    Seen {
        stopped: status.stopped.map(u32::from),
        refused: status.refused.map(|word| RefusedWord {
            number: word.refusal.into(),
            // As both count it: a trim takes the forgotten midnights away.
            record: word.record_after(0).unwrap_or_default(),
            midnights: word.midnights as usize,
        }),
        unfinished: status.unfinished as usize,
        ends: status.days,
        days: product.days().map(|day| day.number).collect(),
        parts: (0..=status.midnights).chain([past]).map(part).collect(),
        session: settings::of_product(product.session()),
    }
}

fn of_second(second: &Second) -> Seen {
    let days: Vec<u32> = second.days().iter().map(|day| day.number).collect();
    let mut parts = vec![second.before()];
    parts.extend(second.days().iter().map(|day| day.part));
    parts.push(Part::default());
    Seen {
        stopped: second.stopped(),
        refused: second.refused(),
        unfinished: second.unfinished(),
        ends: days.first().copied().zip(days.last().copied()),
        days,
        parts,
        session: settings::of_second(second.session()),
    }
}

/// The log in pieces, some of them empty. Their sums must be the whole's; after a
/// refusal each piece gets its number again and nothing is taken, but an empty
/// one has no refusal.
fn fed_in_pieces(case: &mut Case, edition: Edition, log: &[u8], whole: Fed) -> Agreed<Product> {
    let mut product = Product::new(edition);
    let mut sum = Fed {
        taken: 0,
        refusal: None,
    };
    let length = case.random.one_of(&[1, 4, 7, 64, 1_000]);
    let mut left = log;
    while !left.is_empty() {
        let most = (left.len() as u32).min(length);
        let (piece, rest) = left.split_at(case.random.between(0, most) as usize);
        let answer = given(case, &mut product, piece);
        if piece.is_empty() || sum.refusal.is_some() {
            let (taken, refusal) = (0, sum.refusal.filter(|_| !piece.is_empty()));
            let asked = || format!("piece {piece:X?} of {log:X?}");
            case.agree(asked, &answer, &Fed { taken, refusal })?;
        }
        sum.taken += answer.taken;
        sum.refusal = sum.refusal.or(answer.refusal);
        left = rest;
    }
    case.agree(|| format!("pieces of {log:X?}"), &sum, &whole)?;
    Ok(product)
}

/// A piece; one byte goes to either of the two functions that take it.
fn given(case: &mut Case, product: &mut Product, piece: &[u8]) -> Fed {
    match *piece {
        [byte] if case.random.below(2) == 0 => {
            case.tally.mark("bytes by themselves");
            let refusal = product.byte(byte).err().map(u32::from);
            Fed {
                taken: u64::from(refusal.is_none()),
                refusal,
            }
        }
        _ => fed(product, piece),
    }
}

/// More bytes after the log's end, to both: a stopped replay takes none of them.
fn later_bytes(case: &mut Case, mut product: Product, mut second: Second, log: &[u8]) -> Agreement {
    for _ in 0..2 {
        let later = match case.random.below(4) {
            0 => Vec::new(),
            1 => vec![case.random.one_of(&[records::WORD, records::MIDNIGHT, 0])],
            _ => {
                let mut later = records::any(&mut case.random);
                later.truncate(100);
                later
            }
        };
        let asked = || format!("{later:X?} after {log:X?}");
        let expected = second.feed(&later);
        case.agree(asked, &fed(&mut product, &later), &expected)?;
        agree(case, &product, &second, asked)?;
        if expected.refusal.is_some() && expected.taken == 0 {
            case.tally.mark("later bytes refused");
        }
    }
    Ok(())
}

/// The words of the whole records among these bytes, which were all taken.
fn words(taken: &[u8]) -> impl Iterator<Item = u32> + '_ {
    taken.chunks_exact(5).filter_map(|record| match *record {
        [records::WORD, a, b, c, d] => Some(u32::from_le_bytes([a, b, c, d])),
        _ => None,
    })
}

/// The product gathers the words of so many records at a time.
const GATHERED: usize = 128;

/// The most records of words that stand one after another.
fn longest_run(log: &[u8]) -> usize {
    let runs = log.chunks_exact(5).collect::<Vec<_>>();
    let runs = runs.split(|record| record[0] != records::WORD);
    runs.map(<[&[u8]]>::len).max().unwrap_or(0)
}

/// What the log was, for the tests to look at.
fn count(case: &mut Case, log: &[u8], second: &Second) {
    let tally = &mut *case.tally;
    tally.add("bytes", log.len() as u64);
    tally.add("midnights", second.days().len() as u64);
    tally.answer(second.stopped().unwrap_or(0));
    if let Some(word) = second.refused() {
        tally.answer(word.number);
    }
    if second.unfinished() > 0 {
        tally.mark("unfinished records");
    }
    if second.before().runs > 0 {
        tally.mark("logs with runs before the first midnight");
    }
    if second.days().iter().filter(|day| day.part.runs > 0).count() > 1 {
        tally.mark("logs with runs on several days");
    }
    if second.days().iter().any(|day| day.part.claims >= 1 << 32) {
        tally.mark("logs with a day of 2^32 elements or more");
    }
    if longest_run(log) > GATHERED {
        tally.mark("logs with more words in a row than are gathered");
    }
    if second.days().len() == 400 {
        tally.mark("logs with 400 midnights");
    }
    if second.days().last().map(|day| day.number) == Some(u32::MAX) {
        tally.mark("logs up to the last day's number");
    }
}
