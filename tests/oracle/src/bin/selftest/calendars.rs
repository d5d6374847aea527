//! The calendar: the known calendars, and the marked year against the windows as pairs of numbers.

use crate::{Tally, SEED};
use oracle::answers::{self, Verdict};
use oracle::calendar::{schedule, year, YEAR_HOURS};
use oracle::calendars::{drawn, Size};
use oracle::case::{FREE, OFF_LINE, ON_LINE};
use oracle::dp::best_list;
use oracle::known_calendars::{known_calendars, COUNT};
use oracle::random::Rng;

/// Numbers of random calendars, and how many of them have long lists.
const CALENDARS: u64 = 10_000;
const LONG_LISTS_EVERY: u64 = 100;

/// The known calendars: the answer, and a list that is found through the check of the filled day.
pub fn known(tally: &mut Tally) {
    tally.same("count", known_calendars().len() as u64, COUNT);
    for row in known_calendars() {
        let (case, calendar, answer) = (&row.case, row.calendar(), &row.answer);
        let given = schedule(case, &calendar, row.numbers, row.outputs, best_list);
        tally.same(row.name, &given, answer);
        if let (0, Ok(filled)) = (answer.number, calendar.filled(case)) {
            let passes = Verdict { number: 0, hour: 0, rule: 0, profit: answer.profit };
            tally.same(row.name, answers::verdict(&filled, &answer.list), passes);
        }
    }
}

/// Random calendars: a list has a year exactly if each of its windows has an hour, ends by the year's end and ends
/// before the next begins or where it does; the order of an hour is by the windows that hold it.
pub fn random(tally: &mut Tally) -> String {
    let mut counts = [0; 3];
    for index in 0..CALENDARS {
        let size = if index % LONG_LISTS_EVERY == 0 { Size::LongLists } else { Size::Small };
        let drawn = drawn(&mut Rng::for_index(SEED + 8, index), size);
        let lists = [&drawn.on, &drawn.off];
        lists.iter().for_each(|list| tally.same("list", year(list).is_ok(), is_as_laid_down(list)));
        let (first, hours) = (usize::from(drawn.first), usize::from(drawn.hours));
        let day_is = (23..=25).contains(&hours) && first + hours <= YEAR_HOURS;
        let wanted = if day_is && lists.iter().all(|list| is_as_laid_down(list)) {
            (first..first + hours).map(|hour| lists.map(|list| holds(list, hour))).map(order).collect()
        } else {
            Err(14)
        };
        counts[match wanted {
            Ok(_) => 0,
            Err(number) => number as usize - 13,
        }] += 1;
        tally.same("orders", drawn.calendar().orders(), wanted);
    }
    format!("; filled, by 14, by 15: {counts:?}")
}

/// Whether a list is one that 14 does not refuse, by its pairs of numbers and their neighbours.
fn is_as_laid_down(list: &[u16]) -> bool {
    let pairs: Vec<(u32, u32)> = list.chunks_exact(2).map(|pair| (pair[0].into(), pair[1].into())).collect();
    let alone = pairs.iter().all(|&(first, length)| length > 0 && first + length <= YEAR_HOURS as u32);
    let beside = pairs.windows(2).all(|two| two[0].0 + two[0].1 <= two[1].0);
    2 * pairs.len() == list.len() && alone && beside
}

/// Whether a window of a list holds an hour of the year.
fn holds(list: &[u16], hour: usize) -> bool {
    let holds = |first: usize, length: usize| (first..first + length).contains(&hour);
    list.chunks_exact(2).any(|pair| holds(pair[0].into(), pair[1].into()))
}

/// The order of an hour that the lists hold or not.
fn order([on, off]: [bool; 2]) -> Result<u8, u32> {
    if on && off {
        return Err(15);
    }
    Ok(if on {
        ON_LINE
    } else if off {
        OFF_LINE
    } else {
        FREE
    })
}
