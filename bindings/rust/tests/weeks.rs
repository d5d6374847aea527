//! Up to 168 hours, minimum times of up to 24 hours, and how many numbers a search is lent to work in.

use giqapsun::boundary::{giqapsun_best, giqapsun_best_by_calendar, giqapsun_work, Plan};
use giqapsun::{
    best, best_by_calendar, check, compare, read, working_numbers, write, Case, Comparison, Opening, Refusal,
    Verdict, FILE_MOST, HOURS, OFF, ON, PRICE_LEAST, PRICE_MOST, SHORT_TIME, STAGES, WORK, WORK_MOST,
};

const CASE_7: &[u8] = include_bytes!("../../../cases/case7.case");
const SECOND_CASE_7: &[u8] = include_bytes!("../../../cases/old/form2/case7.case");
const OLD_CASE_7: &[u8] = include_bytes!("../../../cases/old/case7.case");
const SOURCE: &[u8] = include_bytes!("../../../cases/source.case");
const WEEK: &[u8] = include_bytes!("../../../cases/week.case");
const BOILER: &[u8] = include_bytes!("../../../cases/boiler.case");

/// The longest minimum time.
const LONGEST_TIME: u16 = 24;

/// Case 7's unit with these minimum times, on so many hours at a price.
fn unit(minup: u16, mindown: u16, hours: usize, price: i32) -> Case {
    let mut case = Case { minup, mindown, hours, prices: [0; HOURS], ..read(CASE_7).unwrap() };
    case.prices[..hours.min(HOURS)].fill(price);
    case
}

/// The source's day, so many times over.
fn repeated(days: usize) -> Case {
    let day = read(SOURCE).unwrap();
    let mut case = Case { hours: days * day.hours, ..day };
    for (k, price) in case.prices[..days * day.hours].iter_mut().enumerate() {
        *price = day.prices[k % day.hours];
    }
    case
}

/// Table V of the source: its profit in tenths of a dollar, less 0.05 dollar, is reached.
#[test]
fn the_sources_day_repeated() {
    for (days, tenths, profit) in [
        (1, 167_735, 33_546_962),
        (2, 391_395, 78_279_049),
        (4, 838_716, 167_743_223),
        (7, 1_509_697, 301_939_484),
    ] {
        let case = repeated(days);
        let plan = best(&case).unwrap();
        assert_eq!((plan.outputs.len(), plan.profit), (24 * days, profit));
        assert!(plan.profit >= 200 * tenths - 100);
        assert_eq!(check(&case, &plan.outputs), Ok(Verdict::Passes { profit }));
        assert_eq!(read(&write(&case).unwrap()), Ok(case));
    }
}

#[test]
fn stored_weeks() {
    let (week, boiler) = (read(WEEK).unwrap(), read(BOILER).unwrap());
    assert_eq!(week, repeated(7));
    assert_eq!(write(&week).unwrap(), WEEK);
    assert_eq!(write(&boiler).unwrap(), BOILER);
    assert_eq!((boiler.minup, boiler.mindown, boiler.hours), (20, 12, HOURS));
    let plan = best(&boiler).unwrap();
    assert_eq!((plan.outputs.len(), plan.profit), (HOURS, 283_279_650));
    assert_eq!(check(&boiler, &plan.outputs), Ok(Verdict::Passes { profit: plan.profit }));
    for (&order, &output) in boiler.orders.iter().zip(&plan.outputs) {
        assert!(!(order == ON && output == 0 || order == OFF && output > 0));
    }
    assert!(boiler.orders.contains(&ON) && boiler.orders.contains(&OFF));
    // a list of the week's length beside it, and one of another
    let idle = [0; HOURS];
    let second = Ok(Comparison::Second { profit: plan.profit });
    assert_eq!(compare(&boiler, &idle, &plan.outputs), second);
    assert_eq!(compare(&boiler, &idle[1..], &plan.outputs), Err(Refusal::ListLength));
}

/// A week of two days and five is the week: what the first part leaves opens the second.
#[test]
fn parts_of_a_week() {
    for case in [read(WEEK).unwrap(), read(BOILER).unwrap()] {
        let plan = best(&case).unwrap();
        for cut in [1, 24, 48, 49, 120, 167] {
            let first = Case { hours: cut, ..case };
            let (list, rest) = plan.outputs.split_at(cut);
            let mut second = case.opened(first.opening_after(list));
            second.hours -= cut;
            second.prices.rotate_left(cut);
            second.orders.rotate_left(cut);
            let (Ok(Verdict::Passes { profit }), Ok(Verdict::Passes { profit: other })) =
                (check(&first, list), check(&second, rest))
            else {
                panic!("cut after {cut}");
            };
            assert_eq!(profit + other, plan.profit, "cut after {cut}");
        }
    }
}

/// A unit that has been on-line for 2 hours stops as early as it may where each hour loses; one that has been
/// off-line for 2 starts as early as it may where each hour earns.
#[test]
fn minimum_times() {
    for time in 1..=LONGEST_TIME {
        let first = usize::from(time.saturating_sub(1).max(3));
        let losing = unit(time, 1, 48, 5);
        let plan = best(&losing).unwrap();
        assert_eq!(plan.outputs.iter().position(|&output| output == 0), Some(first - 1), "up for {time}");
        if first > 3 {
            let mut early = plan.outputs;
            early.remove(0);
            early.push(0);
            let breaks = Verdict::Breaks { hour: first as u32 - 1, rule: 21 };
            assert_eq!(check(&losing, &early), Ok(breaks), "up for {time}");
        }
        let first = usize::from(time.saturating_sub(1).max(1));
        let idle = Opening { initial: 0, elapsed: 2, upstage: 0, downstage: 0 };
        let earning = unit(1, time, 48, 500).opened(idle);
        let plan = best(&earning).unwrap();
        assert_eq!(plan.outputs.iter().position(|&output| output > 0), Some(first - 1), "down for {time}");
        if first > 1 {
            let mut early = plan.outputs;
            early.remove(0);
            early.push(4);
            let breaks = Verdict::Breaks { hour: first as u32 - 1, rule: 22 };
            assert_eq!(check(&earning, &early), Ok(breaks), "down for {time}");
        }
    }
}

/// Between a start and a stop of the list, and between a stop and a start of it; with a stop after the last hour.
#[test]
fn minimum_times_within_the_hours() {
    let idle = Opening { initial: 0, elapsed: 24, upstage: 0, downstage: 0 };
    let case = unit(LONGEST_TIME, LONGEST_TIME, HOURS, 5).opened(idle);
    // starts in hours 1, 49, 97 and 145, stops in hours 25, 73 and 121
    let mut list: Vec<u16> = (0..HOURS)
        .map(|k| match k % 48 {
            0 | 23 => 1,
            1..=22 => 2,
            _ => 0,
        })
        .collect();
    assert!(matches!(check(&case, &list), Ok(Verdict::Passes { .. })));
    // the first stop an hour early; then the second start too
    (list[22], list[23]) = (1, 0);
    assert_eq!(check(&case, &list), Ok(Verdict::Breaks { hour: 24, rule: 21 }));
    (list[47], list[48]) = (1, 2);
    let shorter = Case { minup: 23, ..case };
    assert!(matches!(check(&shorter, &list), Ok(Verdict::Passes { .. })));
    (list[23], list[22]) = (1, 2);
    assert_eq!(check(&case, &list), Ok(Verdict::Breaks { hour: 48, rule: 22 }));
    // a start in hour 150, and a shut-down that the last hour cuts on PD(2): its stop, in hour 169, is too early
    let mut cut = [0; HOURS];
    cut[149] = 1;
    cut[150..HOURS - 1].fill(2);
    cut[HOURS - 1] = 1;
    assert_eq!(check(&case, &cut), Ok(Verdict::Breaks { hour: 169, rule: 21 }));
    assert!(matches!(check(&Case { minup: 19, ..case }, &cut), Ok(Verdict::Passes { .. })));
}

/// The limits are accepted, and refused one past them: hours by 2, minimum times by 4.
#[test]
fn limits() {
    for (minup, mindown) in [(1, 1), (8, 9), (9, 8), (LONGEST_TIME, 1), (1, LONGEST_TIME), (20, 24)] {
        for hours in [1, 48, 49, 96, 97, HOURS] {
            let case = unit(minup, mindown, hours, 20);
            let zeroed = read(&write(&case).unwrap()).unwrap();
            assert_eq!((zeroed.minup, zeroed.mindown, zeroed.hours), (minup, mindown, hours));
            assert_eq!(best(&case).unwrap().outputs.len(), hours);
        }
    }
    let (over, wild) = (HOURS + 1, usize::MAX);
    for (refusal, case) in [
        (Refusal::Counts, Case { hours: over, ..unit(1, 1, 3, 5) }),
        (Refusal::Counts, Case { hours: 256 + 3, ..unit(1, 1, 3, 5) }),
        (Refusal::Counts, Case { hours: wild, minup: 25, ..unit(1, 1, 3, 5) }),
        (Refusal::RampsAndTimes, unit(0, 1, 3, 5)),
        (Refusal::RampsAndTimes, unit(1, 0, HOURS, 5)),
        (Refusal::RampsAndTimes, unit(LONGEST_TIME + 1, 1, 3, 5)),
        (Refusal::RampsAndTimes, unit(1, LONGEST_TIME + 1, HOURS, 5)),
        (Refusal::RampsAndTimes, unit(256 + 3, 1, 3, 5)),
        (Refusal::RampsAndTimes, unit(u16::MAX, u16::MAX, 3, 5)),
    ] {
        assert_eq!(write(&case), Err(refusal));
        assert_eq!(best(&case), Err(refusal));
        assert_eq!(check(&case, &[2, 1, 0]), Err(refusal));
        assert_eq!(compare(&case, &[2, 1, 0], &[2, 1, 0]), Err(refusal));
    }
}

/// A week with prices, costs and trajectories at their limits, and the longest file.
#[test]
fn the_largest_week() {
    let mut case = Case {
        capacity: 400,
        minimum: 8,
        rampup: 400,
        rampdown: 400,
        minup: LONGEST_TIME,
        mindown: LONGEST_TIME,
        variable: 1_000_000,
        fixed: 100_000_000,
        startcost: 100_000_000,
        stopcost: 100_000_000,
        initial: 400,
        elapsed: 10_000,
        rises: STAGES,
        falls: STAGES,
        hours: HOURS,
        rise: [1, 2, 3, 4, 5, 6, 7, 8],
        fall: [8, 7, 6, 5, 4, 3, 2, 1],
        ..Case::default()
    };
    for price in [PRICE_MOST, PRICE_LEAST] {
        case.prices.fill(price);
        case.orders.fill(ON);
        assert_eq!(write(&case).unwrap().len(), FILE_MOST);
        assert_eq!(read(&write(&case).unwrap()), Ok(case));
        let plan = best(&case).unwrap();
        let output = if price > 0 { 400 } else { 8 };
        let margin = i64::from(price - case.variable);
        let first = margin * (400 + i64::from(output));
        let rest = 167 * margin * 2 * i64::from(output);
        if price > 0 {
            assert_eq!(plan.outputs, [output; HOURS]);
            assert_eq!(plan.profit, first + rest - 168 * 200_000_000);
        } else {
            // down to the minimum at once, and on PD in the last hours, whose stop comes after them
            assert_eq!(plan.outputs[..HOURS - 7], [output; HOURS - 7]);
            assert_eq!(plan.outputs[HOURS - 7..], [7, 6, 5, 4, 3, 2, 1]);
            assert_eq!(check(&case, &plan.outputs), Ok(Verdict::Passes { profit: plan.profit }));
            assert!(plan.profit > first + rest - 168 * 200_000_000);
        }
    }
}

/// A file of case 7 with so many hours, by where its hours stand, the bytes of an hour, and what follows them.
fn of_hours(file: &[u8], (offset, width, after): (usize, usize, usize), hours: usize) -> Vec<u8> {
    let length = width * hours;
    let mut bytes = file[..offset].to_vec();
    bytes[14..16].copy_from_slice(&(length as u16).to_le_bytes());
    if after > 0 {
        bytes[16..18].copy_from_slice(&((offset + length) as u16).to_le_bytes());
    }
    for _ in 0..hours {
        bytes.extend_from_slice(&file[offset..offset + width]);
    }
    bytes.extend_from_slice(&file[file.len() - after..]);
    bytes
}

/// Every form has up to 168 hours, with the same case in each.
#[test]
fn files_of_every_form() {
    let forms = [(CASE_7, (62, 5, 2)), (SECOND_CASE_7, (60, 5, 2)), (OLD_CASE_7, (56, 3, 0))];
    for (file, places) in forms {
        for hours in [1, 3, 48, 49, 167, HOURS] {
            assert_eq!(read(&of_hours(file, places, hours)), Ok(unit(1, 1, hours, 5)));
        }
        for hours in [0, HOURS + 1, 256, 1000] {
            assert_eq!(read(&of_hours(file, places, hours)), Err(Refusal::Counts));
        }
        // the minimum times, right after RD
        let place = if file == OLD_CASE_7 { 24 } else { 28 };
        for (minup, mindown, taken) in [(24, 24, true), (25, 1, false), (1, 25, false), (0, 1, false)] {
            let mut bytes = of_hours(file, places, HOURS);
            (bytes[place], bytes[place + 2]) = (minup, mindown);
            let case = unit(minup.into(), mindown.into(), HOURS, 5);
            assert_eq!(read(&bytes), if taken { Ok(case) } else { Err(Refusal::RampsAndTimes) });
        }
    }
}

/// How many numbers a search of a case with these minimum times is lent.
const TIMES: [(u16, u16, usize); 12] = [
    (1, 1, 8_192),
    (8, 1, 8_192),
    (1, 8, 8_192),
    (8, 8, 8_192),
    (9, 1, 32_768),
    (1, 9, 32_768),
    (9, 8, 32_768),
    (8, 9, 32_768),
    (20, 12, 32_768),
    (24, 1, 32_768),
    (1, 24, 32_768),
    (24, 24, 32_768),
];

#[test]
fn numbers_to_work_in() {
    assert_eq!((SHORT_TIME, WORK, WORK_MOST), (8, 8_192, 32_768));
    for (minup, mindown, numbers) in TIMES {
        assert_eq!(working_numbers(&unit(minup, mindown, 3, 5)), numbers);
        assert!(best(&unit(minup, mindown, 3, 5)).is_ok());
        assert!(best_by_calendar(&unit(minup, mindown, 24, 5), &[], &[], 0, 24).is_ok());
    }
}

/// The two times alone decide, in records that every call refuses too.
#[test]
fn numbers_of_refused_records() {
    for (minup, mindown, numbers) in
        [(0, 0, WORK), (0, 8, WORK), (25, 0, WORK_MOST), (0, 9, WORK_MOST), (u16::MAX, u16::MAX, WORK_MOST)]
    {
        for case in
            [Case::default(), unit(1, 1, 3, 5), Case { rises: usize::MAX, ..unit(1, 1, usize::MAX, 5) }]
        {
            let case = Case { minup, mindown, ..case };
            assert!(best(&case).is_err());
            assert_eq!(working_numbers(&case), numbers);
            // SAFETY: the call takes no pointer.
            assert_eq!(unsafe { giqapsun_work(case) }, numbers);
        }
    }
}

/// Lends a search so many numbers, all filled with noise; gives its plan and how many of them it has set to 0, of
/// which there is none after the first that it has not.
fn lent(search: impl FnOnce(&mut [i64], &mut [u16]) -> Plan, numbers: usize) -> (u32, usize) {
    let mut work = vec![-7i64; WORK_MOST + 3];
    let mut room = [60_000u16; HOURS + 2];
    let plan = search(&mut work[..numbers], &mut room);
    let zeroed = work.iter().take_while(|&&number| number == 0).count();
    assert!(work[zeroed..].iter().all(|&number| number == -7));
    (plan.number, zeroed)
}

/// The search of a case, by its own orders or with a window that orders its first hour off-line.
fn searched(case: Case, by_calendar: bool, numbers: usize) -> (u32, usize) {
    let off: &[u16] = if case.orders[0] == OFF { &[2400, 1] } else { &[] };
    let search = |work: &mut [i64], room: &mut [u16]| {
        let (work, n, room, m) = (work.as_mut_ptr(), work.len(), room.as_mut_ptr(), room.len());
        // SAFETY: pointers and lengths of slices.
        unsafe {
            if by_calendar {
                giqapsun_best_by_calendar(
                    case,
                    off.as_ptr(),
                    0,
                    off.as_ptr(),
                    off.len(),
                    2400,
                    24,
                    work,
                    n,
                    room,
                    m,
                )
            } else {
                giqapsun_best(case, work, n, room, m)
            }
        }
    };
    lent(search, numbers)
}

/// One number less is 10, also where no list keeps every rule; on 0 and 11 as many are zeroed as the case asks for.
#[test]
fn lending_by_the_minimum_times() {
    for (minup, mindown, asked) in TIMES {
        let case = unit(minup, mindown, 24, 5);
        let mut none = case;
        none.orders[0] = OFF;
        for (case, number) in [(case, 0), (none, 11)] {
            for by_calendar in [false, true] {
                for numbers in [asked, asked + 3, WORK_MOST, WORK_MOST + 3] {
                    assert_eq!(searched(case, by_calendar, numbers), (number, asked), "{minup} {mindown}");
                }
                for numbers in [0, 1, asked / 2, asked - 1] {
                    assert_eq!(searched(case, by_calendar, numbers), (10, 0), "{minup} {mindown}");
                }
            }
        }
        // the record is tested before its numbers
        for number in [0, asked - 1, asked] {
            assert_eq!(searched(Case { rampup: 0, ..case }, false, number), (4, 0));
        }
    }
    for (minup, mindown) in [(25, 1), (1, 25)] {
        assert_eq!(searched(unit(minup, mindown, 24, 5), false, WORK_MOST), (4, 0));
    }
}
