//! Document 02, request 14, "Fleet report": the scores of up to 64 stations' logs
//! in one report. Each log is replayed by itself.

use crate::score::{score_in, Lease, Month};
use crate::Answer;

/// "Over up to 64 logs"; as a station it means that none is left.
const MOST_STATIONS: usize = 64;

/// "four numbers a station: log length, first day, days, owed"
const NUMBERS: usize = 4;

/// "lent room of four numbers"
const ROOM: usize = 4;

/// What a fleet's months come to.
#[derive(Clone, Copy, Debug, PartialEq, Eq)]
pub struct Report {
    pub served: u64,
    pub owed: u64,
    /// Lease days that owe more than 0 and are served 0.
    pub silent_days: u64,
    /// The station with the smallest served part, 64 if none owes anything.
    pub station: u64,
}

/// Reports on the fleet and writes served, owed, silent days and station into the
/// room: 0, or the refusal, which touches no number of the room. The order is 3, 11,
/// 22, then the refusal (21, 18, 19) of the first station that has one.
pub fn fleet(edition: u32, logs: &[u8], numbers: &[u64], room: &mut [u64]) -> u32 {
    match report(edition, logs, numbers, room.len()) {
        Ok(report) => {
            room[0] = report.served;
            room[1] = report.owed;
            room[2] = report.silent_days;
            room[3] = report.station;
            0
        }
        Err(number) => number,
    }
}

/// The same without the room, of which the length is asked.
pub fn report(edition: u32, logs: &[u8], numbers: &[u64], room: usize) -> Answer<Report> {
    if edition != 1 && edition != 2 {
        return Err(3);
    }
    if numbers.len() % NUMBERS != 0 || room != ROOM {
        return Err(11);
    }
    let stations: Vec<&[u64]> = numbers.chunks_exact(NUMBERS).collect();
    // So wide that the sum can't wrap.
    let sum: u128 = stations.iter().map(|station| u128::from(station[0])).sum();
    if sum != logs.len() as u128 {
        return Err(11);
    }
    if stations.len() > MOST_STATIONS {
        return Err(22);
    }
    let mut months = Vec::new();
    let mut rest = logs;
    for station in stations {
        // Each length is at most the sum, which is the slice's.
        let (log, behind) = rest.split_at(station[0] as usize);
        rest = behind;
        months.push(score_in(edition, &lease_of(station)?, log)?);
    }
    Ok(Report {
        served: months.iter().map(|month| month.served).sum(),
        owed: months.iter().map(|month| month.owed).sum(),
        silent_days: months.iter().map(silent_days).sum(),
        station: smallest_part(&months),
    })
}

/// The station's lease line; 21 for a number that is wider than 32 bits.
fn lease_of(station: &[u64]) -> Answer<Lease> {
    let narrow = |number: u64| u32::try_from(number).map_err(|_| 21u32);
    Ok(Lease {
        first_day: narrow(station[1])?,
        days: narrow(station[2])?,
        owed: narrow(station[3])?,
    })
}

/// "the number of silent days (owing more than 0, served 0)": of the lease's days,
/// which all owe the same.
pub(crate) fn silent_days(month: &Month) -> u64 {
    if month.owed == 0 {
        return 0;
    }
    month.days.iter().filter(|day| day.served == 0).count() as u64
}

/// The station of which served/owed is smallest: compared by cross products, "the
/// lower station number wins ties, stations owing nothing are left out".
fn smallest_part(months: &[Month]) -> u64 {
    let mut smallest: Option<usize> = None;
    for (number, month) in months.iter().enumerate() {
        if month.owed == 0 {
            continue;
        }
        let smaller = match smallest {
            None => true,
            Some(other) => part_is_smaller(month, &months[other]),
        };
        if smaller {
            smallest = Some(number);
        }
    }
    smallest.unwrap_or(MOST_STATIONS) as u64
}

/// Whether one's served/owed is less than the other's. Both owe something.
fn part_is_smaller(one: &Month, other: &Month) -> bool {
    u128::from(one.served) * u128::from(other.owed)
        < u128::from(other.served) * u128::from(one.owed)
}

#[cfg(test)]
mod tests {
    use super::*;

    /// Document 01's whole stream up to its start. Its output is FLOAT32_1, so both
    /// editions claim alike.
    #[rustfmt::skip]
    const SETTINGS: [u32; 13] = [
        0xC001_0A00, 0x1000, 0x0400_0010,
        0xC003_0C00, 0, 0x800, 0x0201_0064, 0x12,
        0xC003_0700, 0, 0, 0x5F, 0x11,
    ];

    /// What a start claims under these settings.
    const CLAIM: u64 = 1_728;

    fn words(words: &[u32]) -> Vec<u8> {
        let record = |word: &u32| [&[1][..], &word.to_le_bytes()].concat();
        words.iter().flat_map(record).collect()
    }

    fn midnight(day: u32) -> Vec<u8> {
        [&[2][..], &day.to_le_bytes()].concat()
    }

    /// A log with days from this number on, with so many starts each.
    fn log(first: u32, days: &[u64]) -> Vec<u8> {
        let mut log = words(&SETTINGS);
        for (place, starts) in days.iter().enumerate() {
            log.extend(midnight(first + place as u32));
            for _ in 0..*starts {
                log.extend(words(&[0xC000_0800, 0]));
            }
        }
        log
    }

    /// A station: its log, and first day, days, owed.
    type Station = (Vec<u8>, [u64; 3]);

    /// A station whose lease begins with its log's first day.
    fn station(days: &[u64], lease: u64, owed: u64) -> Station {
        (log(5, days), [5, lease, owed])
    }

    /// The two slices of a fleet.
    fn slices(stations: &[Station]) -> (Vec<u8>, Vec<u64>) {
        let mut logs = Vec::new();
        let mut numbers = Vec::new();
        for (log, lease) in stations {
            logs.extend(log);
            numbers.push(log.len() as u64);
            numbers.extend(lease);
        }
        (logs, numbers)
    }

    /// The report of a fleet that isn't refused, under both editions.
    fn told(stations: &[Station]) -> [u64; 4] {
        let (logs, numbers) = slices(stations);
        let mut rooms = [[9; 4]; 2];
        for edition in [1, 2] {
            let room = &mut rooms[edition as usize - 1];
            assert_eq!(fleet(edition, &logs, &numbers, room), 0);
        }
        assert_eq!(rooms[0], rooms[1]);
        rooms[0]
    }

    fn assert_refused(edition: u32, logs: &[u8], numbers: &[u64], room: usize, number: u32) {
        let mut room = vec![9; room];
        let before = room.clone();
        assert_eq!(
            fleet(edition, logs, numbers, &mut room),
            number,
            "{numbers:?}"
        );
        assert_eq!(room, before);
    }

    fn assert_stations_refused(stations: &[Station], number: u32) {
        let (logs, numbers) = slices(stations);
        assert_refused(1, &logs, &numbers, 4, number);
        assert_refused(2, &logs, &numbers, 4, number);
    }

    #[test]
    fn one_station() {
        // Day by day: capped, served in part, silent, capped.
        let one = station(&[3, 1, 0, 9], 4, 2 * CLAIM);
        assert_eq!(told(&[one]), [5 * CLAIM, 8 * CLAIM, 1, 0]);
    }

    #[test]
    fn r151_no_logs() {
        assert_eq!(told(&[]), [0, 0, 0, 64]);
        assert_refused(1, &[1], &[], 4, 11);
        assert_refused(3, &[], &[], 4, 3);
    }

    #[test]
    fn totals_are_exact_sums() {
        let stations = [
            station(&[1, 2, 3], 3, CLAIM),
            station(&[0, 2], 3, 2 * CLAIM),
            station(&[5], 1, 0),
        ];
        let served = 3 * CLAIM + 2 * CLAIM;
        assert_eq!(told(&stations), [served, 3 * CLAIM + 6 * CLAIM, 2, 1]);
        // 64 stations that owe the most: above 32 bits.
        let most = vec![station(&[], 31, 100_000_000); 64];
        assert_eq!(told(&most), [0, 198_400_000_000, 64 * 31, 0]);
    }

    #[test]
    fn r152_silent_days_are_lease_days() {
        // A day with a midnight and no start, one without a midnight, and days
        // outside the lease that don't count.
        let late = (log(5, &[1, 0, 1, 0]), [4, 3, CLAIM]);
        assert_eq!(told(&[late])[2], 2);
        // A day that is served in part isn't silent.
        assert_eq!(told(&[station(&[1, 1], 2, 9 * CLAIM)])[2], 0);
        // Owing nothing none is silent.
        assert_eq!(told(&[station(&[0, 0], 31, 0)])[2], 0);
        assert_eq!(told(&[station(&[], 31, 1)])[2], 31);
    }

    #[test]
    fn r150_the_smallest_part_by_fractions() {
        // Served and owed: 2/3, 1/2, 3/4; and 1/1, which serves less than 3/4.
        let two_thirds = station(&[1, 1, 0], 3, CLAIM);
        let half = station(&[1, 0], 2, CLAIM);
        let three_quarters = station(&[1, 1, 1, 0], 4, CLAIM);
        let full = station(&[1], 1, CLAIM);
        let named = |stations: &[&Station]| {
            let stations: Vec<Station> = stations.iter().map(|one| (*one).clone()).collect();
            told(&stations)[3]
        };
        assert_eq!(named(&[&two_thirds, &half, &three_quarters, &full]), 1);
        assert_eq!(named(&[&full, &three_quarters]), 1);
        assert_eq!(named(&[&three_quarters, &full]), 0);
        assert_eq!(named(&[&full, &two_thirds, &three_quarters]), 1);
        // 1/2 and 2/4 tie, and the lower number wins.
        let also_half = station(&[1, 1, 0, 0], 4, CLAIM);
        assert_eq!(named(&[&full, &half, &also_half]), 1);
        assert_eq!(named(&[&full, &also_half, &half]), 1);
        // A fleet of full stations names the first that owes.
        let nothing = station(&[1], 1, 0);
        assert_eq!(named(&[&full, &full]), 0);
        assert_eq!(named(&[&nothing, &full, &full]), 1);
        // One that owes nothing is left out, however little it serves.
        assert_eq!(named(&[&nothing, &nothing]), 64);
        assert_eq!(named(&[&nothing, &full, &nothing, &half]), 3);
        // Parts that serve nothing tie too.
        let dark = station(&[0], 1, 1);
        assert_eq!(named(&[&half, &dark, &station(&[], 31, 7), &dark]), 1);
    }

    #[test]
    fn r150_products_above_63_bits() {
        // Both owe 3,100,000,000; one serves an element more.
        let month = |served| Month {
            days: Vec::new(),
            served,
            owed: 3_100_000_000,
            verdict: crate::score::Verdict::Short,
        };
        let (most, less) = (month(3_100_000_000), month(3_099_999_999));
        assert!(u128::from(most.served) * u128::from(most.owed) > 1 << 63);
        assert!(part_is_smaller(&less, &most));
        assert!(!part_is_smaller(&most, &less));
        assert!(!part_is_smaller(&most, &most));
        assert_eq!(smallest_part(&[most.clone(), less.clone(), most]), 1);
    }

    #[test]
    fn r148_3_comes_first() {
        let (logs, numbers) = slices(&vec![(vec![9], [0, 0, 0]); 65]);
        for edition in [0, 3, 4, u32::MAX] {
            assert_refused(edition, &logs, &numbers, 4, 3);
            assert_refused(edition, &logs, &numbers[1..], 5, 3);
        }
    }

    #[test]
    fn r148_11_for_the_numbers_the_room_and_the_lengths() {
        let (logs, numbers) = slices(&[station(&[1], 1, 1), station(&[2], 1, 1)]);
        for count in [1, 2, 3, 5, 7] {
            assert_refused(1, &logs, &numbers[..count], 4, 11);
        }
        for room in [0, 1, 3, 5, 8] {
            assert_refused(1, &logs, &numbers, room, 11);
        }
        assert_refused(1, &logs[1..], &numbers, 4, 11);
        assert_refused(1, &[&logs[..], &[0]].concat(), &numbers, 4, 11);
        assert_refused(1, &logs, &[], 4, 11);
        // Before 22, also for 65 stations whose lengths don't add up.
        let (logs, numbers) = slices(&vec![station(&[], 1, 1); 65]);
        assert_refused(1, &logs, &numbers, 4, 22);
        assert_refused(1, &logs[1..], &numbers, 4, 11);
        assert_refused(1, &logs, &numbers, 3, 11);
        // Before a station's refusal.
        let (logs, numbers) = slices(&[(vec![9], [0, 0, 0])]);
        assert_refused(1, &logs, &numbers, 4, 21);
        assert_refused(1, &logs, &numbers, 5, 11);
    }

    #[test]
    fn r149_lengths_are_added_exactly() {
        let half = 1 << 63;
        assert_refused(1, &[], &[half, 5, 1, 1, half, 5, 1, 1], 4, 11);
        assert_refused(1, &[0], &[u64::MAX, 5, 1, 1, 2, 5, 1, 1], 4, 11);
        assert_refused(1, &[], &[u64::MAX, 5, 1, 1, 1, 5, 1, 1], 4, 11);
        let (logs, numbers) = slices(&[station(&[1], 1, 1)]);
        let wrapped = [numbers.clone(), vec![u64::MAX, 5, 1, 1, 1, 5, 1, 1]].concat();
        assert_refused(1, &logs, &wrapped, 4, 11);
    }

    #[test]
    fn r148_22_for_more_than_64_logs_before_their_refusals() {
        let bad = (vec![9], [0, 0, 0]);
        assert_stations_refused(&vec![bad.clone(); 65], 22);
        assert_stations_refused(&vec![bad; 64], 21);
        let good = station(&[1], 1, CLAIM);
        let told = told(&vec![good.clone(); 64]);
        assert_eq!(told, [64 * CLAIM, 64 * CLAIM, 0, 0]);
        assert_stations_refused(&vec![good; 65], 22);
    }

    #[test]
    fn r148_the_first_station_that_is_refused() {
        let good = station(&[1], 1, CLAIM);
        let line = (log(5, &[1]), [5, 0, 1]);
        let kind = ([log(5, &[1]), vec![3]].concat(), [5, 1, 1]);
        let day = ([log(5, &[1]), midnight(7)].concat(), [5, 1, 1]);
        let list = |stations: &[&Station]| -> Vec<Station> {
            stations.iter().map(|one| (*one).clone()).collect()
        };
        for (bad, number) in [(&line, 21), (&kind, 18), (&day, 19)] {
            assert_stations_refused(&list(&[bad]), number);
            assert_stations_refused(&list(&[&good, bad]), number);
            assert_stations_refused(&list(&[bad, &good]), number);
            for later in [&line, &kind, &day] {
                assert_stations_refused(&list(&[&good, bad, later]), number);
            }
        }
        // Within a station 21 comes before 18 and 19.
        let both = (kind.0.clone(), line.1);
        assert_stations_refused(&[good, both], 21);
    }

    #[test]
    fn lease_lines_out_of_their_bounds_get_21() {
        for lease in [
            [5, 0, 1],
            [5, 32, 1],
            [5, 1, 100_000_001],
            [u64::from(u32::MAX), 2, 1],
            // Wider than 32 bits, though the low 32 bits alone would do.
            [1 << 32 | 5, 1, 1],
            [5, 1 << 32 | 1, 1],
            [5, 1, 1 << 32 | 1],
            [u64::MAX; 3],
        ] {
            assert_stations_refused(&[(log(5, &[1]), lease)], 21);
        }
        let last = (Vec::new(), [u64::from(u32::MAX), 1, 100_000_000]);
        assert_eq!(told(&[last]), [0, 100_000_000, 1, 0]);
    }

    #[test]
    fn r153_refused_words_refuse_nothing() {
        // The second day's start comes behind the refused word.
        let damaged = [log(5, &[1]), words(&[7]), log(6, &[1])[65..].to_vec()].concat();
        let unfinished = [log(5, &[1]), vec![1, 2]].concat();
        let stations = [(damaged, [5, 2, CLAIM]), (unfinished, [5, 1, CLAIM])];
        assert_eq!(told(&stations), [2 * CLAIM, 3 * CLAIM, 1, 0]);
    }

    #[test]
    fn each_log_begins_anew() {
        // Settings and days of one station don't reach the next.
        let bare = |day| [midnight(day), words(&[0xC000_0800, 0])].concat();
        let stations = [station(&[1], 1, CLAIM), (bare(5), [5, 1, CLAIM])];
        assert_eq!(told(&stations), [CLAIM, 2 * CLAIM, 1, 1]);
        let stations = [(bare(900), [900, 1, CLAIM]), station(&[1], 1, CLAIM)];
        assert_eq!(told(&stations), [CLAIM, 2 * CLAIM, 1, 0]);
    }

    #[test]
    fn editions_differ_where_outputs_have_several_channels() {
        // FLOAT32_4 in place of FLOAT32_1: four channels, three after the mask.
        let mut settings = SETTINGS;
        settings[6] = 0x0401_0064;
        let masked = [0xC000_1900, 0xFFFE, 0xC000_0800, 0];
        let log = [words(&settings), midnight(5), words(&masked)].concat();
        let (logs, numbers) = slices(&[(log, [5, 1, 9 * CLAIM])]);
        for (edition, served) in [(1, CLAIM), (2, 3 * CLAIM)] {
            let mut room = [0; 4];
            assert_eq!(fleet(edition, &logs, &numbers, &mut room), 0);
            assert_eq!(room, [served, 9 * CLAIM, 0, 0]);
        }
    }

    /// A small generator, so that the fleets are the same at each run.
    fn next(seed: &mut u64) -> u32 {
        *seed ^= *seed << 13;
        *seed ^= *seed >> 7;
        *seed ^= *seed << 17;
        (*seed >> 32) as u32
    }

    #[test]
    fn fleets_told_from_their_starts() {
        let mut seed = 0xF1EE;
        let mut ties = 0;
        for _ in 0..300 {
            let count = next(&mut seed) as usize % 65;
            let mut stations = Vec::new();
            // The second way: each station's served and owed from its starts alone.
            let mut parts: Vec<(u64, u64)> = Vec::new();
            let mut silent = 0;
            for _ in 0..count {
                let any = next(&mut seed);
                let days: Vec<u64> = (0..any % 4)
                    .map(|_| u64::from(next(&mut seed) % 3))
                    .collect();
                let lease = u64::from(any / 4 % 4) + 1;
                let owed = [0, 1, CLAIM, 2 * CLAIM][any as usize / 16 % 4];
                let mut served = 0;
                for day in 0..lease as usize {
                    let starts = days.get(day).copied().unwrap_or(0);
                    let due = owed.min(starts * CLAIM);
                    silent += u64::from(owed > 0 && due == 0);
                    served += due;
                }
                stations.push(station(&days, lease, owed));
                parts.push((served, owed * lease));
            }
            let [served, owed, silent_days, named] = told(&stations);
            assert_eq!(served, parts.iter().map(|part| part.0).sum());
            assert_eq!(owed, parts.iter().map(|part| part.1).sum());
            assert_eq!(silent_days, silent);
            // The one named owes, no part is smaller, and no earlier one is equal.
            let owing: Vec<usize> = (0..count).filter(|n| parts[*n].1 > 0).collect();
            if owing.is_empty() {
                assert_eq!(named, 64);
                continue;
            }
            assert!(owing.contains(&(named as usize)));
            let (least, of) = parts[named as usize];
            for other in owing {
                let (their, owes) = parts[other];
                assert!(least * owes <= their * of, "{named} {other}");
                if least * owes == their * of {
                    assert!(named <= other as u64);
                    ties += u32::from(named < other as u64);
                }
            }
        }
        assert!(ties > 1000, "{ties}");
    }

    #[test]
    fn a_fleet_of_two_parts_joined() {
        // Sums add up; the station is one of the two that the parts name, the later
        // part's moved behind the first part's stations.
        let mut seed = 0x101F;
        for _ in 0..100 {
            let some = |count, seed: &mut u64| -> Vec<Station> {
                (0..count)
                    .map(|_| {
                        let days = [0; 2].map(|_: u32| u64::from(next(seed) % 3));
                        station(&days, 2, u64::from(next(seed) % 3) * CLAIM)
                    })
                    .collect()
            };
            let (one, two) = (some(5, &mut seed), some(7, &mut seed));
            let (first, second) = (told(&one), told(&two));
            let joined = told(&[one, two].concat());
            for place in 0..3 {
                assert_eq!(joined[place], first[place] + second[place]);
            }
            let moved = if second[3] == 64 { 64 } else { second[3] + 5 };
            assert!([first[3], moved].contains(&joined[3]));
        }
    }
}
