//! Random days of request F-6: up to 168 hours, with a minimum time above 8 hours. They open inside of what
//! it locks or near its end, prices and orders make runs of about its length, and some runs are over about
//! hour T.

use crate::case::{Case, FREE, MOST_HOURS, OFF_LINE, ON_LINE};
use crate::dp::best_list;
use crate::random::Rng;
use crate::refusals::{HOURS_IN_STATE, LONGEST_TIME, PRICES, SHORT_TIME};
use crate::units::{
    full_day_of, long_day_of, longer_day, narrow_day_of, open_inside, open_on_line, set_orders, smaller_unit,
};

/// A unit small enough to try every list.
pub fn small_locked(rng: &mut Rng) -> Case {
    let (case, times) = (smaller_unit(rng), times(rng, LONGEST_TIME));
    locked(rng, case, times)
}

/// A longer day, for trying every commitment, with minimum times that may end within it.
pub fn longer_locked(rng: &mut Rng) -> Case {
    let mut case = longer_day(rng);
    while case.t <= usize::from(SHORT_TIME) + 1 {
        case = longer_day(rng);
    }
    let most = rng.pick(&[case.t as u16 - 1, case.t as u16 - 1, LONGEST_TIME]);
    let times = times(rng, most);
    let mut case = locked(rng, case, times);
    match rng.below(4) {
        0 => set_last_run(rng, &mut case),
        1 => set_rest(rng, &mut case),
        _ => {}
    }
    case
}

/// A day of up to a week with a small capacity, so that many of them take little time.
pub fn locked_week(rng: &mut Rng) -> Case {
    let t = hours(rng);
    let (case, times) = (long_day_of(rng, t, 40), times(rng, LONGEST_TIME));
    locked(rng, case, times)
}

/// One of few outputs, so that a list which is drawn at random starts and stops often.
pub fn narrow_week(rng: &mut Rng) -> Case {
    let t = hours(rng);
    let (case, times) = (narrow_day_of(rng, t), times(rng, LONGEST_TIME));
    locked(rng, case, times)
}

/// A day of up to a week of any size within the limits, in one of four times without a long minimum time.
pub fn full_week(rng: &mut Rng) -> Case {
    let t = hours(rng);
    let (case, times) = (full_day_of(rng, t), times(rng, LONGEST_TIME));
    if rng.once_in(4) {
        return case;
    }
    locked(rng, case, times)
}

/// A week of the most outputs, with the longest minimum times, and ramps as narrow and as wide as can be.
pub fn largest_week(rng: &mut Rng) -> Case {
    let mut case = full_day_of(rng, MOST_HOURS);
    while case.capacity < 400 || case.minimum > 8 {
        case = full_day_of(rng, MOST_HOURS);
    }
    (case.ramp_up, case.ramp_down) = rng.pick(&[(1, 1), (400, 400), (20, 100), (400, 1)]);
    locked(rng, case, (LONGEST_TIME, LONGEST_TIME))
}

/// Hours of a day: often of a whole week, or of more than two days.
fn hours(rng: &mut Rng) -> usize {
    match rng.below(3) {
        0 => MOST_HOURS,
        1 => rng.place(49, MOST_HOURS - 1),
        _ => rng.place(10, 60),
    }
}

/// Minimum up and down times, of which one is above 8 hours, or both are, up to so many hours.
fn times(rng: &mut Rng, most: u16) -> (u16, u16) {
    let short = rng.between16(1, SHORT_TIME);
    let (up, down) = (long_time_to(rng, most), long_time_to(rng, most));
    match rng.below(4) {
        0 => (up, short),
        1 => (short, down),
        _ => (up, down),
    }
}

/// A minimum time above 8 hours.
pub fn long_time(rng: &mut Rng) -> u16 {
    long_time_to(rng, LONGEST_TIME)
}

/// One of up to so many hours.
fn long_time_to(rng: &mut Rng, most: u16) -> u16 {
    match rng.below(6) {
        0 => SHORT_TIME + 1,
        1 => most.min(20),
        2 => most,
        _ => rng.between16(SHORT_TIME + 1, most),
    }
}

/// The day with these minimum times, and with an opening, prices and orders that go with them.
fn locked(rng: &mut Rng, mut case: Case, times: (u16, u16)) -> Case {
    (case.min_up, case.min_down) = times;
    open_in_lock(rng, &mut case);
    case.orders[..case.t].fill(FREE);
    if rng.once_in(2) {
        set_blocks(rng, &mut case);
    }
    match rng.below(8) {
        0 | 1 => set_orders(rng, &mut case),
        2 => set_orders_of_blocks(rng, &mut case),
        3 => set_last_run(rng, &mut case),
        4 => set_rest(rng, &mut case),
        _ => {}
    }
    case
}

/// Opens the day off-line, on-line or inside a start or a stop, mostly inside of what a minimum time locks.
fn open_in_lock(rng: &mut Rng, case: &mut Case) {
    match rng.below(4) {
        0 => open_off_line(rng, case),
        1 | 2 => {
            open_on_line(rng, case);
            case.h = hours_about(rng, case.ud as u16, case.min_up);
        }
        _ => {
            open_inside(rng, case);
            if case.down_stage > 0 {
                let since = case.ud as u16 + u16::from(case.down_stage) - 1;
                case.h = hours_about(rng, since, case.min_up);
            }
        }
    }
}

/// Opens the day off-line.
fn open_off_line(rng: &mut Rng, case: &mut Case) {
    (case.p0, case.up_stage, case.down_stage) = (0, 0, 0);
    case.h = hours_about(rng, 1, case.min_down);
}

/// Hours in state: the least that there may be, less than a minimum time, about it, or any.
fn hours_about(rng: &mut Rng, least: u16, time: u16) -> u16 {
    let hours = match rng.below(5) {
        0 => least,
        1 | 2 => rng.between16(1, time),
        3 => time + rng.between16(0, 2) - 1,
        _ => rng.between16(1, HOURS_IN_STATE),
    };
    hours.max(least)
}

/// Prices in blocks of hours in which an on-line hour earns or loses, so that the best list starts and stops.
fn set_blocks(rng: &mut Rng, case: &mut Case) {
    let spread = 1 + case.a / i32::from(case.minimum) + rng.between32(0, case.f);
    let longest = rng.pick(&[10, 20, 30, 60]);
    let (mut first, mut earns) = (0, rng.once_in(2));
    while first < case.t {
        let end = (first + rng.place(1, longest)).min(case.t);
        let price = if earns { case.f + spread } else { case.f - spread };
        case.prices[first..end].fill(price.clamp(*PRICES.start(), *PRICES.end()));
        (first, earns) = (end, !earns);
    }
}

/// Orders that force parts of the best list at prices in blocks.
fn set_orders_of_blocks(rng: &mut Rng, case: &mut Case) {
    let mut other = *case;
    set_blocks(rng, &mut other);
    let Some(plan) = best_list(&other) else {
        return;
    };
    let share = rng.between(1, 24);
    for (order, output) in case.orders.iter_mut().zip(plan.list) {
        if rng.once_in(share) {
            *order = if output > 0 { ON_LINE } else { OFF_LINE };
        }
    }
}

/// Makes a start of the day, by orders, whose minimum up time is over at hour T or beside it, at prices that
/// ask for a stop as soon as there may be one; the day opens off-line. Where there is no room for it, nothing
/// is changed.
fn set_last_run(rng: &mut Rng, case: &mut Case) {
    let time = usize::from(case.min_up);
    let Some(start) =
        (case.t + rng.place(0, 3)).checked_sub(time).filter(|start| (2..=case.t).contains(start))
    else {
        return;
    };
    open_off_line(rng, case);
    case.h = case.h.max(case.min_down.saturating_sub(start as u16 - 1));
    let loss = rng.pick(&[1, 1 + case.f / 4, 1 + case.f]);
    case.prices[..case.t].fill(case.f - loss);
    case.orders[..case.t].fill(FREE);
    (case.orders[start - 2], case.orders[start - 1]) = (OFF_LINE, ON_LINE);
    if rng.once_in(3) {
        case.orders[case.t - 1] = rng.pick(&[ON_LINE, OFF_LINE]);
    }
}

/// Makes a stop of the day after which the minimum down time is over at hour T or earlier, at prices that ask
/// for a start as soon as there may be one; the day opens at the minimum output, or inside a stop, long after
/// a start. Where there is no room for it, nothing is changed.
fn set_rest(rng: &mut Rng, case: &mut Case) {
    let Some(last) = case.t.checked_sub(case.min_down.into()).filter(|&last| last >= case.dd) else {
        return;
    };
    open_on_line(rng, case);
    (case.p0, case.h) = (case.minimum, HOURS_IN_STATE);
    let any = rng.place(case.dd, last);
    let mut stop = rng.pick(&[any, last]);
    if case.dd > 1 && rng.once_in(2) {
        case.down_stage = rng.place(2, case.dd) as u8;
        case.p0 = case.pd[usize::from(case.down_stage) - 1];
        stop = case.dd + 1 - usize::from(case.down_stage);
    }
    let gain = (1 + 2 * case.a + 2 * case.b).min(*PRICES.end() - case.f);
    case.prices[..stop].fill(case.f - 1);
    case.prices[stop..case.t].fill(case.f + gain);
    case.orders[..case.t].fill(FREE);
    case.orders[stop - 1] = OFF_LINE;
    if stop > 1 {
        case.orders[stop - 2] = ON_LINE;
    }
}
