//! The best list by the windows of a calendar: the orders that they fill, refusals of windows and day.

use giqapsun::{
    best, best_by_calendar, read, Case, Refusal, DAY_LEAST, DAY_MOST, FREE, OFF, ON, PRICE_MOST, YEAR_HOURS,
};

const CASE_7: &[u8] = include_bytes!("../../../cases/case7.case");

/// Case 7's unit, on a day whose prices lead it up and down; its own orders are off-line, which no list keeps.
fn day(hours: u16) -> Case {
    let mut case = read(CASE_7).unwrap();
    case.hours = hours.into();
    for (k, price) in case.prices[..case.hours].iter_mut().enumerate() {
        *price = if k % 9 < 4 { 5 } else { 20 };
    }
    case.orders[..case.hours].fill(OFF);
    assert_eq!(best(&case), Err(Refusal::NoSchedule));
    case
}

/// Whether an hour of the year is in one of the windows.
fn holds(windows: &[u16], hour: u16) -> bool {
    windows.chunks(2).any(|window| (window[0]..window[0] + window[1]).contains(&hour))
}

/// The list by the windows is the one by the orders that they stand for.
fn planned(on: &[u16], off: &[u16], first: u16, hours: u16) {
    let mut filled = day(hours);
    for (order, hour) in filled.orders.iter_mut().zip(first..first + hours) {
        *order = match (holds(on, hour), holds(off, hour)) {
            (true, false) => ON,
            (false, true) => OFF,
            (false, false) => FREE,
            (true, true) => panic!("hour {hour} is in both lists"),
        };
    }
    let plan = best_by_calendar(&day(hours), on, off, first, hours);
    assert_eq!(plan, best(&filled), "{on:?} {off:?} {hours} hours from {first}");
}

/// A day of 24 hours from hour 2,400 of the year is refused.
fn refused(case: &Case, on: &[u16], off: &[u16], refusal: Refusal) {
    assert_eq!(best_by_calendar(case, on, off, 2400, 24), Err(refusal), "{on:?} {off:?}");
}

#[test]
fn days_about_windows() {
    // on-line windows that touch, and off-line ones of which one touches them
    let (on, off) = ([100, 3, 103, 2, 130, 9], [60, 1, 93, 7, 110, 4, 140, 30]);
    for hours in DAY_LEAST..=DAY_MOST {
        for first in 30..=180 {
            planned(&on, &off, first, hours);
            planned(&off, &on, first, hours);
        }
    }
}

#[test]
fn empty_lists() {
    for hours in DAY_LEAST..=DAY_MOST {
        planned(&[], &[], 0, hours);
        planned(&[5, 1], &[], 0, hours);
        planned(&[], &[10, 1], 0, hours);
    }
}

#[test]
fn ends_of_the_year() {
    let each: Vec<u16> = (0..YEAR_HOURS).flat_map(|hour| [hour, 1]).collect();
    for hours in DAY_LEAST..=DAY_MOST {
        let last = YEAR_HOURS - hours;
        for first in [0, 1, last - 1, last] {
            planned(&[0, YEAR_HOURS], &[], first, hours);
            planned(&each, &[], first, hours);
            planned(&[0, 1, YEAR_HOURS - 1, 1], &[], first, hours);
        }
        // first hour plus length beyond the year, up to 65,535, and beyond that
        let wraps = u16::MAX - hours + 1;
        for first in [last + 1, YEAR_HOURS - 1, YEAR_HOURS, wraps - 1, wraps, u16::MAX] {
            assert_eq!(best_by_calendar(&day(hours), &[], &[], first, hours), Err(Refusal::Calendar));
        }
    }
}

#[test]
fn parts_of_one_buffer() {
    let buffer = [2400, 2, 2404, 2, 2500, 3];
    planned(&buffer[..2], &buffer[2..], 2400, 24);
    planned(&buffer[..4], &buffer[4..], 2400, 24);
    refused(&day(24), &buffer[..4], &buffer[2..], Refusal::Conflict);
    // the same windows in both lists, none of which is in the day
    planned(&buffer, &buffer, 2470, 24);
}

#[test]
fn lists_that_are_no_windows() {
    let long = vec![1; 100_002];
    let lists: [&[u16]; 16] = [
        // an odd count
        &[5],
        &[5, 2, 9],
        // no hours
        &[5, 0],
        &[5, 2, 7, 0],
        &[YEAR_HOURS, 0],
        // a window that begins before the one above it ends
        &[5, 2, 6, 1],
        &[5, 2, 5, 2],
        &[5, 2, 4, 1],
        &[50, 2, 5, 2],
        &long,
        // a window past the end of the year, by more than 16 bits too
        &[YEAR_HOURS - 1, 2],
        &[YEAR_HOURS, 1],
        &[0, YEAR_HOURS + 1],
        &[5, 2, u16::MAX, 1],
        &[u16::MAX, 2],
        &[u16::MAX, u16::MAX],
    ];
    for list in lists {
        for other in [&[][..], &[2400, 24], list] {
            refused(&day(24), list, other, Refusal::Calendar);
            refused(&day(24), other, list, Refusal::Calendar);
        }
    }
}

#[test]
fn days_of_another_length() {
    for hours in [0, 1, DAY_LEAST - 1, DAY_MOST + 1, 48, 168, u16::MAX] {
        for case in [day(24), Case::default()] {
            assert_eq!(best_by_calendar(&case, &[], &[], 2400, hours), Err(Refusal::Calendar), "{hours}");
        }
    }
}

#[test]
fn an_hour_in_both_lists() {
    for hour in 2390..2434 {
        if (2400..2424).contains(&hour) {
            refused(&day(24), &[hour, 1], &[hour, 1], Refusal::Conflict);
            refused(&day(24), &[hour, 1], &[0, YEAR_HOURS], Refusal::Conflict);
        } else {
            assert_ne!(best_by_calendar(&day(24), &[hour, 1], &[hour, 1], 2400, 24), Err(Refusal::Conflict));
        }
    }
}

#[test]
fn order_of_the_tests() {
    let (window, both) = ([2410, 4], [2413, 1]);
    // an order byte of its own that 8 tests, though it is replaced, then a price, a minimum, another T
    let mut case = day(24);
    case.prices[23] = PRICE_MOST + 1;
    refused(&case, &window, &[], Refusal::Prices);
    case.orders[23] = 3;
    refused(&case, &window, &[], Refusal::Orders);
    case.minimum = 0;
    refused(&case, &window, &[], Refusal::Capacity);
    for hours in [0, 3, 23, 25, 48, 168, 169] {
        case.hours = hours;
        refused(&case, &window, &[], Refusal::Counts);
    }
    refused(&case, &window, &both, Refusal::Conflict);
    refused(&case, &window, &[2413, 1, 5], Refusal::Calendar);
    // what stands past hour T is disregarded
    let mut case = day(24);
    (case.orders[24], case.prices[24]) = (3, PRICE_MOST + 1);
    assert_eq!(
        best_by_calendar(&case, &window, &[], 2400, 24),
        best_by_calendar(&day(24), &window, &[], 2400, 24)
    );
    // no list keeps the orders
    refused(&case, &[], &[2400, 1], Refusal::NoSchedule);
}
