//! The outage and must-run calendar (request F-3, here the request): a year of hours in which the windows of each list
//! are marked hour by hour, the orders of a day that are read off the two years, and the search of the day so filled.

use crate::answers::{self, Schedule};
use crate::best::Plan;
use crate::case::{Case, FREE, OFF_LINE, ON_LINE};
use crate::refusals::{self, Test};

/// Hours of the longest year, from hour 0 on.
pub const YEAR_HOURS: usize = 8_784;

/// Numbers of hours that a day may have.
pub const DAY_HOURS: [u16; 3] = [23, 24, 25];

/// Two lists of windows, first hour and length of each in turn, and the first hour of a day with its number of hours.
#[derive(Clone, Copy, Debug)]
pub struct Calendar<'a> {
    pub on: &'a [u16],
    pub off: &'a [u16],
    pub first: u16,
    pub hours: u16,
}

/// What 14 is given for.
#[derive(Clone, Copy, Debug, PartialEq, Eq)]
pub enum Fault {
    /// A list that is not of whole pairs.
    NotOfPairs,
    /// A window without an hour.
    Empty,
    /// A window that begins before the one that stands before it in the list.
    Unsorted,
    /// A window that holds an hour of another one.
    Overlapping,
    /// A window or a day that ends past the year.
    PastYear,
    /// A day that has not 23, 24 or 25 hours.
    DayLength,
}

/// The hours of a year, each with whether a window of a list holds it.
pub type Year = [bool; YEAR_HOURS];

/// The hours from a first one on, as places in a year; none if the sum of first hour and length, a plain sum of whole
/// numbers, is above the year's hours.
fn places(first: u16, length: u16) -> Option<std::ops::Range<usize>> {
    let (first, length) = (usize::from(first), usize::from(length));
    (first + length <= YEAR_HOURS).then_some(first..first + length)
}

/// The year of a list: a window holds its first hour and not the hour after its last. Windows may touch, since such
/// have no hour in common.
pub fn year(list: &[u16]) -> Result<Box<Year>, Fault> {
    let mut year = Box::new([false; YEAR_HOURS]);
    let mut before = 0;
    for window in list.chunks(2) {
        let &[first, length] = window else {
            return Err(Fault::NotOfPairs);
        };
        if length == 0 {
            return Err(Fault::Empty);
        }
        let held = places(first, length).ok_or(Fault::PastYear)?;
        if first < before {
            return Err(Fault::Unsorted);
        }
        for hour in &mut year[held] {
            if *hour {
                return Err(Fault::Overlapping);
            }
            *hour = true;
        }
        before = first;
    }
    Ok(year)
}

/// The hours of the year that are those of a day.
pub fn day(first: u16, hours: u16) -> Result<std::ops::Range<usize>, Fault> {
    if !DAY_HOURS.contains(&hours) {
        return Err(Fault::DayLength);
    }
    places(first, hours).ok_or(Fault::PastYear)
}

/// The order of an hour, from whether a window of each list holds it; 15 if one of both does.
fn order(is_on: bool, is_off: bool) -> Result<u8, u32> {
    match (is_on, is_off) {
        (true, true) => Err(15),
        (true, false) => Ok(ON_LINE),
        (false, true) => Ok(OFF_LINE),
        (false, false) => Ok(FREE),
    }
}

/// 14 in place of a fault.
fn or_14<N>(tested: Result<N, Fault>) -> Result<N, u32> {
    tested.map_err(|_| 14)
}

impl Calendar<'_> {
    /// The orders of the day's hours; 14 if a list or the day is not as it should be, and then 15 if an hour of the day
    /// is in both lists. What the lists hold elsewhere in the year is nothing to the day.
    pub fn orders(&self) -> Result<Vec<u8>, u32> {
        let (on, off) = (or_14(year(self.on))?, or_14(year(self.off))?);
        let day = or_14(day(self.first, self.hours))?;
        day.map(|hour| order(on[hour], off[hour])).collect()
    }

    /// 2 of a record: a T that is not the day's number of hours. A count outside its range has the same number, which
    /// is the first that a record is tested for.
    fn record(&self, case: &Case) -> Test {
        if case.t != usize::from(self.hours) {
            return Err(2);
        }
        refusals::record(case)
    }

    /// The day that is scheduled: the case with the orders of the calendar in place of its own. Tests 14 and 15, then 2
    /// to 8 and 13, of which 8 looks at the case's own orders.
    pub fn filled(&self, case: &Case) -> Result<Case, u32> {
        let orders = self.orders()?;
        self.record(case)?;
        let mut filled = *case;
        filled.orders[..case.t].copy_from_slice(&orders);
        Ok(filled)
    }
}

/// The search by a calendar tests 14, 15, 2 to 8 and 13, then 10 and 11 as the search of the filled day does. It leaves
/// in lent memory what that one leaves.
pub fn schedule(
    case: &Case,
    calendar: &Calendar,
    working_numbers: usize,
    outputs: usize,
    search: impl FnOnce(&Case) -> Option<Plan>,
) -> Schedule {
    match calendar.filled(case) {
        Ok(filled) => answers::schedule(&filled, working_numbers, outputs, search),
        Err(number) => Schedule { number, profit: 0, list: Vec::new() },
    }
}
