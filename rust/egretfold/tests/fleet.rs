//! The report of several stations: its numbers, the order of its refusals, and that a
//! refusal touches no room. And the one that grows: that it is the same of up to 64
//! stations, and of any number of them.

use egretfold::{
    fleet_report, lent, Answer, Edition, Fleet, FleetReport, FleetTold, Lease, Refusal, Replay,
};

/// Document 01's whole stream up to its start; a start then claims 96 x 18 elements.
#[rustfmt::skip]
const SETTINGS: [u32; 13] = [
    0xC001_0A00, 0x1000, 0x0400_0010,
    0xC003_0C00, 0, 0x800, 0x0201_0064, 18,
    0xC003_0700, 0, 0, 95, 17,
];
const CLAIM: u64 = 96 * 18;

/// A log of days from day 5 on, with so many starts each.
fn log(days: &[u32]) -> Vec<u8> {
    let record = |kind: u8, number: u32| [&[kind][..], &number.to_le_bytes()].concat();
    let mut log: Vec<u8> = SETTINGS.iter().flat_map(|word| record(1, *word)).collect();
    for (day, starts) in (5..).zip(days) {
        log.extend(record(2, day));
        for _ in 0..*starts {
            log.extend([record(1, 0xC000_0800), record(1, 0)].concat());
        }
    }
    log
}

fn station(days: &[u32], owed: u64) -> (Vec<u8>, Lease) {
    let lease = Lease::new(5, days.len() as u32, owed as u32);
    (log(days), lease.expect("a lease"))
}

fn told(stations: &[(Vec<u8>, Lease)]) -> Answer<FleetReport> {
    let logs: Vec<u8> = stations.iter().flat_map(|(log, _)| log.clone()).collect();
    let lengths: Vec<(usize, Lease)> = stations
        .iter()
        .map(|(log, lease)| (log.len(), *lease))
        .collect();
    fleet_report(Edition::First, &logs, &lengths)
}

#[test]
fn served_owed_silent_days_and_the_smallest_part() {
    let half = station(&[1, 0], CLAIM);
    let third = station(&[0, 1, 0], CLAIM);
    let also_third = station(&[1, 0, 0], CLAIM);
    let nothing = station(&[0], 0);
    let stations = [nothing.clone(), half, third, also_third];
    let due = FleetReport {
        served: 3 * CLAIM,
        owed: 8 * CLAIM,
        silent_days: 5,
        station: Some(2),
    };
    assert_eq!(told(&stations), Ok(due));
    assert_eq!(told(&[nothing]).map(|report| report.station), Ok(None));
    let none = told(&[]).expect("a fleet of none");
    assert_eq!((none.served, none.owed, none.station), (0, 0, None));
}

#[test]
fn more_than_64_are_refused() {
    let one = station(&[1], CLAIM);
    assert!(told(&vec![one.clone(); 64]).is_ok());
    assert_eq!(told(&vec![one; 65]), Err(Refusal::TooManyLogs));
}

#[test]
fn refusals_come_in_their_order_and_touch_no_room() {
    let good = log(&[1]);
    let length = good.len() as u64;
    let numbers = [length, 5, 1, 1];
    let many = [0, 5, 1, 1].repeat(65);
    let damaged = [&good[..], &[9]].concat();
    for (edition, logs, numbers, room, number) in [
        (0, &good[..], &numbers[..3], 5, 3),
        (1, &good[..], &numbers[..3], 4, 11),
        (1, &good[..], &numbers[..], 3, 11),
        (1, &good[1..], &numbers[..], 4, 11),
        (2, &good[..], &many[..], 4, 11),
        (2, &[][..], &many[..], 4, 22),
        (1, &damaged[..], &[length + 1, 5, 32, 1][..], 4, 21),
        (1, &damaged[..], &[length + 1, 5, 1, 1][..], 4, 18),
    ] {
        let mut lent_room = vec![7; room];
        let is = lent::fleet_report(edition, logs, numbers, &mut lent_room);
        assert_eq!(is, number);
        assert_eq!(lent_room, vec![7; room], "{number}");
    }
}

fn replayed(edition: Edition, log: &[u8]) -> Replay {
    let mut replay = Replay::new(edition);
    replay.feed(log);
    replay
}

/// The stations added one by one, or the first refusal.
fn grown(stations: &[(Vec<u8>, Lease)]) -> Answer<Fleet> {
    let mut fleet = Fleet::new(Edition::First);
    for (log, lease) in stations {
        fleet.add(&replayed(Edition::First, log), *lease)?;
    }
    Ok(fleet)
}

/// Groups of so many stations, joined in their order.
fn in_groups(stations: &[(Vec<u8>, Lease)], size: usize) -> Answer<Fleet> {
    let mut fleet = Fleet::new(Edition::First);
    for group in stations.chunks(size) {
        fleet.join(&grown(group)?)?;
    }
    Ok(fleet)
}

/// The stations by their months' numbers.
fn by_months(stations: &[(Vec<u8>, Lease)]) -> Answer<Fleet> {
    let mut fleet = Fleet::new(Edition::First);
    for (log, lease) in stations {
        let month = replayed(Edition::First, log).score(lease)?;
        let silent = |served: u64| lease.owed() > 0 && served == 0;
        let silent = month.days.iter().filter(|day| silent(day.served)).count();
        fleet.add_month(month.served, month.owed, silent as u64)?;
    }
    Ok(fleet)
}

/// Seventy stations of several parts, some of which owe nothing and some of which tie.
fn many() -> Vec<(Vec<u8>, Lease)> {
    let one = |k: u32| {
        let days = [k % 3, k % 2, (k * 7) % 4];
        let owed = CLAIM * u64::from(k * 5 % 4);
        station(&days[..1 + (k % 3) as usize], owed)
    };
    (1..=70).map(one).collect()
}

#[test]
fn a_growing_report_is_the_report_of_up_to_64() {
    let stations = many();
    for count in 0..=64 {
        let stations = &stations[..count];
        let fleet = grown(stations).expect("stations that are scored");
        for size in [1, 3, 16, 64] {
            assert_eq!(in_groups(stations, size).as_ref(), Ok(&fleet));
        }
        assert_eq!(by_months(stations).as_ref(), Ok(&fleet));
        let due = told(stations).expect("a report");
        let is = fleet.tell();
        assert_eq!(is.stations, count as u64);
        assert_eq!(
            (is.served, is.owed, is.silent_days),
            (due.served, due.owed, due.silent_days)
        );
        assert_eq!(is.station, due.station.map(|station| station as u64));
        assert_eq!(Fleet::from_bytes(&fleet.to_bytes()), Some(fleet));
    }
    let all = grown(&stations).expect("stations that are scored");
    assert_eq!(in_groups(&stations, 64), Ok(all.clone()));
    assert_eq!(by_months(&stations), Ok(all));
}

#[test]
fn the_first_refused_station_is_told_by_all() {
    let mut stations = many();
    stations.truncate(60);
    stations[40].0.push(9);
    stations[50].0.extend([2, 0, 0, 0, 0]);
    let wrong = told(&stations).expect_err("station 40 is refused");
    assert_eq!(wrong, Refusal::with_number(18).expect("18"));
    assert_eq!(grown(&stations), Err(wrong));
    assert_eq!(in_groups(&stations, 16), Err(wrong));
    let behind = &stations[41..];
    assert_eq!(told(behind).err(), grown(behind).err());
    assert_eq!(grown(behind).err(), Refusal::with_number(19));
}

#[test]
fn station_64_is_told_apart_from_none() {
    let mut fleet = Fleet::new(Edition::Second);
    let none = FleetTold {
        stations: 0,
        served: 0,
        owed: 0,
        silent_days: 0,
        station: None,
    };
    assert_eq!(fleet.tell(), none);
    for station in 0..64 {
        fleet.add_month(0, 0, 0).expect("a month");
        assert_eq!(fleet.tell().station, None, "{station}");
    }
    let mut room = [7; 5];
    assert_eq!(lent::fleet_tell(&fleet, &mut room), 0);
    assert_eq!(room, [0, 0, 0, 64, 0]);
    fleet.add_month(2, 5, 1).expect("a month");
    let due = FleetTold {
        stations: 65,
        served: 2,
        owed: 5,
        silent_days: 1,
        station: Some(64),
    };
    assert_eq!(fleet.tell(), due);
    assert_eq!(lent::fleet_tell(&fleet, &mut room), 0);
    assert_eq!(room, [2, 5, 1, 64, 1]);
    // The lower number wins ties, and a joined one is numbered on.
    let behind = fleet.clone();
    fleet.join(&behind).expect("room for both");
    assert_eq!(fleet.tell().station, Some(64));
    let mut front = Fleet::new(Edition::Second);
    front.add_month(3, 5, 0).expect("a month");
    front.join(&behind).expect("room for both");
    assert_eq!(front.tell().station, Some(65));
}

#[test]
fn a_refused_addition_changes_nothing() {
    let (log, lease) = station(&[1, 0], CLAIM);
    let good = replayed(Edition::First, &log);
    let mut fleet = Fleet::new(Edition::First);
    fleet.add(&good, lease).expect("a month");
    let before = fleet.clone();
    let other = replayed(Edition::Second, &log);
    let damaged = replayed(Edition::First, &[9]);
    let late = replayed(Edition::First, &[2, 5, 0, 0, 0, 2, 5, 0, 0, 0]);
    let stopped = replayed(Edition::Second, &[9]);
    let line = (lease.first_day(), lease.days(), lease.owed());
    for (replay, line, number) in [
        (&stopped, (5, 32, 1), 3),
        (&other, line, 3),
        (&damaged, (5, 32, 1), 21),
        (&damaged, line, 18),
        (&late, line, 19),
    ] {
        assert_eq!(lent::fleet_add(&mut fleet, replay, line), number);
        assert_eq!(fleet, before, "{number}");
    }
    let most = 3_100_000_000;
    for (served, owed, silent) in [(0, most + 1, 0), (6, 5, 0), (0, 1, 32)] {
        assert_eq!(lent::fleet_add_month(&mut fleet, served, owed, silent), 21);
        assert_eq!(fleet, before);
    }
    assert_eq!(
        lent::fleet_join(&mut fleet, &Fleet::new(Edition::Second)),
        3
    );
    assert_eq!(fleet, before);
    assert_eq!(lent::fleet_begin(3), Err(Refusal::Malformed));
    fleet.add_month(most, most, 31).expect("the greatest month");
}

/// A report of so many stations that owe and are served as much as can be.
fn full(stations: u64) -> Fleet {
    let mut part = Fleet::new(Edition::First);
    part.add_month(3_100_000_000, 3_100_000_000, 31)
        .expect("a month");
    let mut fleet = Fleet::new(Edition::First);
    let mut left = stations;
    while left > 0 {
        if left % 2 == 1 {
            fleet.join(&part).expect("room for both");
        }
        left /= 2;
        if left > 0 {
            let same = part.clone();
            part.join(&same).expect("room for both");
        }
    }
    fleet
}

#[test]
fn two_to_the_32_stations_and_no_more() {
    let most = 1 << 32;
    let mut fleet = full(most - 1);
    assert_eq!(fleet.join(&full(2)), Err(Refusal::TooManyLogs));
    fleet.add_month(0, 1, 1).expect("the last one");
    let is = fleet.tell();
    assert_eq!(is.stations, most);
    assert_eq!(
        (is.served, is.owed),
        ((most - 1) * 3_100_000_000, (most - 1) * 3_100_000_000 + 1)
    );
    assert_eq!(
        (is.silent_days, is.station),
        ((most - 1) * 31 + 1, Some(most - 1))
    );
    let before = fleet.clone();
    let (log, lease) = station(&[1], CLAIM);
    let replay = replayed(Edition::First, &log);
    assert_eq!(fleet.add(&replay, lease), Err(Refusal::TooManyLogs));
    assert_eq!(fleet.add_month(6, 5, 0), Err(Refusal::TooManyLogs));
    assert_eq!(fleet.join(&full(1)), Err(Refusal::TooManyLogs));
    fleet
        .join(&Fleet::new(Edition::First))
        .expect("no station more");
    assert_eq!(fleet, before);
    assert_eq!(Fleet::from_bytes(&fleet.to_bytes()), Some(before));
}

#[test]
fn only_a_reports_numbers_come_back() {
    let mut fleet = Fleet::new(Edition::First);
    fleet.add_month(2, 5, 1).expect("a month");
    let kept: [u64; 8] = [1, 1, 2, 5, 1, 0, 2, 5];
    let bytes = |sums: [u64; 8]| sums.map(u64::to_le_bytes).concat();
    assert_eq!(fleet.to_bytes(), bytes(kept));
    assert_eq!(Fleet::from_bytes(&bytes(kept)), Some(fleet));
    let most = u64::MAX;
    for (place, number) in [
        (0, 0),
        (0, 3),
        (0, (1 << 32) + 1),
        (1, 0),
        (1, (1 << 32) + 1),
        (2, 6),
        (3, 3_100_000_001),
        (3, 1),
        (4, 32),
        (5, 1),
        (6, 6),
        (7, 1),
        (7, 3_100_000_001),
        (7, most),
    ] {
        let mut sums = kept;
        sums[place] = number;
        assert_eq!(Fleet::from_bytes(&bytes(sums)), None, "{place}: {number}");
    }
    assert_eq!(Fleet::from_bytes(&bytes([1, 0, 0, 0, 0, 63, 0, 0])), None);
    assert!(Fleet::from_bytes(&bytes([1, 0, 0, 0, 0, 64, 0, 0])).is_some());
    assert_eq!(Fleet::from_bytes(&bytes(kept)[1..]), None);
}
