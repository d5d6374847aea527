//! Random records that no file need hold: fields at and past their limits, counts of any size,
//! entries past the counts that are not zero.

use crate::case::{Case, MOST_HOURS, MOST_STAGES};
use crate::random::Rng;
use crate::refusals::{HOURS_IN_STATE, LONGEST_TIME, PRICES, SHORT_TIME};
use crate::stages::small_staged;
use crate::units::{full_day, small_unit};
use crate::weeks::{locked_week, small_locked};

/// A case within the limits that is then changed in some way.
pub fn wild_record(rng: &mut Rng) -> Case {
    let mut case = match rng.below(80) {
        0 => full_day(rng),
        1 => locked_week(rng),
        2..=31 => small_staged(rng),
        32..=41 => small_locked(rng),
        _ => small_unit(rng),
    };
    match rng.below(10) {
        0 => fill_past_counts(rng, &mut case),
        1 => change_count(rng, &mut case),
        2 => return any_record(rng),
        3 | 4 => set_opening_near_limit(rng, &mut case),
        _ => {
            for _ in 0..rng.place(1, 2) {
                set_near_limit(rng, &mut case);
            }
            if rng.once_in(2) {
                fill_past_counts(rng, &mut case);
            }
            if rng.once_in(16) {
                change_count(rng, &mut case);
            }
        }
    }
    case
}

/// Random numbers in every field.
fn any_record(rng: &mut Rng) -> Case {
    let mut case = Case {
        capacity: rng.bits() as u16,
        minimum: rng.bits() as u16,
        ramp_up: rng.bits() as u16,
        ramp_down: rng.bits() as u16,
        min_up: rng.bits() as u16,
        min_down: rng.bits() as u16,
        f: rng.bits() as i32,
        a: rng.bits() as i32,
        b: rng.bits() as i32,
        c: rng.bits() as i32,
        p0: rng.bits() as u16,
        h: rng.bits() as u16,
        up_stage: rng.bits() as u8,
        down_stage: rng.bits() as u8,
        ..Case::ZERO
    };
    (case.ud, case.dd, case.t) = (rng.place(1, 8), rng.place(1, 8), rng.place(1, MOST_HOURS));
    fill_from(rng, &mut case, 0, 0, 0);
    if rng.once_in(2) {
        change_count(rng, &mut case);
    }
    case
}

/// Random numbers in every entry past a count.
pub fn fill_past_counts(rng: &mut Rng, case: &mut Case) {
    let (ud, dd, t) = (case.ud, case.dd, case.t);
    fill_from(rng, case, ud, dd, t);
}

/// Random numbers in the entries from these on.
fn fill_from(rng: &mut Rng, case: &mut Case, pu: usize, pd: usize, hours: usize) {
    case.pu.iter_mut().skip(pu).for_each(|entry| *entry = rng.bits() as u16);
    case.pd.iter_mut().skip(pd).for_each(|entry| *entry = rng.bits() as u16);
    case.prices.iter_mut().skip(hours).for_each(|entry| *entry = rng.bits() as i32);
    case.orders.iter_mut().skip(hours).for_each(|entry| *entry = rng.bits() as u8);
}

/// Sets a count to its limits, next to them, or to any number.
pub fn change_count(rng: &mut Rng, case: &mut Case) {
    let any = rng.bits() as usize;
    let far = [0, usize::MAX, usize::MAX - 1, 1 << 63, 1 << 32, (1 << 32) + 1, 256, 65_536, 65_537, any];
    let stages = [1, 2, MOST_STAGES - 1, MOST_STAGES, MOST_STAGES + 1, 16, rng.pick(&far)];
    let hours = [1, 2, MOST_HOURS - 1, MOST_HOURS, MOST_HOURS + 1, 336, rng.pick(&far)];
    match rng.below(4) {
        0 => case.ud = rng.pick(&stages),
        1 => case.dd = rng.pick(&stages),
        2 => case.t = rng.pick(&hours),
        _ => (case.ud, case.dd, case.t) = (rng.pick(&stages), rng.pick(&stages), rng.pick(&hours)),
    }
}

/// Sets one field to a limit of its own or to a number next to it. Counts must fit.
pub fn set_near_limit(rng: &mut Rng, case: &mut Case) {
    match rng.below(24) {
        0 => {
            case.capacity =
                rng.pick(&[0, case.minimum, case.minimum.saturating_sub(1), 399, 400, 401, 65_535])
        }
        1 => case.minimum = rng.pick(&[0, 1, case.capacity, case.capacity.saturating_add(1), 65_535]),
        2 => case.ramp_up = near_limits(rng, 1, 400),
        3 => case.ramp_down = near_limits(rng, 1, 400),
        4 => case.min_up = near_time_limit(rng),
        5 => case.min_down = near_time_limit(rng),
        6 => case.f = near_limit32(rng, 1_000_000),
        7 => case.a = near_limit32(rng, 100_000_000),
        8 => case.b = near_limit32(rng, 100_000_000),
        9 => case.c = near_limit32(rng, 100_000_000),
        10 | 11 => set_stage_near_limit(rng, case),
        12 => case.h = near_limits(rng, 1, HOURS_IN_STATE),
        13 => case.h = near_limits(rng, case.ud as u16, HOURS_IN_STATE),
        14 | 15 => case.p0 = near_limits(rng, case.minimum, case.capacity),
        16 | 17 => set_opening_near_limit(rng, case),
        18..=21 => {
            let any = rng.place(0, case.t - 1);
            let k = rng.pick(&[0, any, case.t - 1]);
            case.prices[k] = near_price_limit(rng);
        }
        _ => {
            let k = rng.place(0, case.t - 1);
            case.orders[k] = rng.pick(&[0, 1, 2, 3, 4, 128, 255]);
        }
    }
}

/// Changes one thing about a stage that is set, or sets one. Counts must fit.
fn set_opening_near_limit(rng: &mut Rng, case: &mut Case) {
    let (ud, dd) = (case.ud as u8, case.dd as u8);
    let stages = [0, 1, 2, case.up_stage, case.down_stage, ud - 1, ud, dd, dd + 1, 8, 9, 128, 255];
    let (rising, falling) = (rng.place(0, case.ud - 1), rng.place(0, case.dd - 1));
    match rng.below(8) {
        0 | 1 => case.up_stage = rng.pick(&stages),
        2 | 3 => case.down_stage = rng.pick(&stages),
        4 => case.h = rng.pick(&[case.h.saturating_sub(1), case.h.saturating_add(1), case.ud as u16]),
        5 => case.h = near_limits(rng, u16::from(ud) + u16::from(case.down_stage) - 1, HOURS_IN_STATE),
        6 => case.p0 = rng.pick(&[case.pu[rising], case.pd[falling]]),
        _ => case.p0 = rng.pick(&[0, case.p0.saturating_add(1), case.p0.saturating_sub(1), case.minimum]),
    }
}

/// A number at, below or above one of two limits, or far off.
fn near_limits(rng: &mut Rng, low: u16, high: u16) -> u16 {
    let beside = [low.saturating_sub(1), low, low.saturating_add(1), high, high.saturating_add(1)];
    let far = [0, 1, high.saturating_sub(1), 256, 65_535];
    if rng.once_in(6) {
        rng.pick(&far)
    } else {
        rng.pick(&beside)
    }
}

/// A minimum time at or next to a limit, or next to the longest short one.
fn near_time_limit(rng: &mut Rng) -> u16 {
    if rng.once_in(3) {
        return rng.pick(&[SHORT_TIME, SHORT_TIME + 1]);
    }
    near_limits(rng, 1, LONGEST_TIME)
}

/// A cost at, below or above a limit, below zero or far off.
fn near_limit32(rng: &mut Rng, limit: i32) -> i32 {
    rng.pick(&[0, limit - 1, limit, limit + 1, limit + 65_536, -1, i32::MIN, i32::MAX])
}

/// A price at or next to a limit, or far off.
fn near_price_limit(rng: &mut Rng) -> i32 {
    let (low, high) = (*PRICES.start(), *PRICES.end());
    let far = [i32::MIN, i32::MAX, low - 65_536, high + 65_536, -1, 65_536];
    if rng.once_in(3) {
        rng.pick(&far)
    } else {
        rng.pick(&[low - 1, low, low + 1, high - 1, high, high + 1])
    }
}

/// Moves one entry of a trajectory onto or next to its neighbour, to 0 or by one.
fn set_stage_near_limit(rng: &mut Rng, case: &mut Case) {
    let rising = rng.once_in(2);
    let count = if rising { case.ud } else { case.dd };
    let stages = if rising { &mut case.pu } else { &mut case.pd };
    let i = rng.place(0, count - 1);
    let neighbour = stages[rng.place(i.saturating_sub(1), (i + 1).min(count - 1))];
    stages[i] = rng.pick(&[
        neighbour,
        neighbour.saturating_add(1),
        neighbour.saturating_sub(1),
        stages[i].saturating_add(1),
        stages[i].saturating_sub(1),
        0,
        65_535,
    ]);
}
