//! Random cases within the limits: small units for trying every list, longer days for trying every
//! commitment, long days of small units and full-size days, all with minimum times of up to 8 hours. In three
//! of four prices may lie below zero and above 65,535 mills (request F-2), and one in four of the units that
//! have stages for it opens inside a start or a stop (request F-5).

use crate::case::{Case, FREE, MOST_HOURS, OFF_LINE, ON_LINE};
use crate::file::OLD_PRICES;
use crate::lists::walk;
use crate::random::Rng;
use crate::refusals::{HOURS_IN_STATE, PRICES, SHORT_TIME};

/// Largest capacity of a small unit for T from 1 to 9, so that (capacity + 2)^T stays below 20,000; and of a smaller
/// one for T from 1 to 7, below 2,500.
const SMALL_CAPACITY: [u16; 9] = [40, 30, 20, 9, 5, 3, 2, 1, 1];
const SMALLER_CAPACITY: [u16; 7] = [40, 40, 11, 5, 2, 1, 1];

/// How much money stands in a case.
#[derive(Clone, Copy)]
enum Money {
    /// Prices at F in most hours and hardly any cost, so that most lists earn the same.
    Even,
    /// Prices near F and costs near 0, so that many lists earn the same.
    Ties,
    /// Numbers of the size of the known days.
    Small,
    /// Numbers of the size of the source's day, with a spike or a price below zero in some hours.
    Realistic,
    /// Numbers up to the limits.
    Extreme,
}

/// A unit small enough to try every list.
pub fn small_unit(rng: &mut Rng) -> Case {
    let most = SMALL_CAPACITY.len();
    let t = if rng.once_in(30) { most } else { rng.place(1, most - 1) };
    small_unit_up_to(rng, t, SMALL_CAPACITY[t - 1])
}

/// One so small that many of them take little time.
pub fn smaller_unit(rng: &mut Rng) -> Case {
    let t = rng.place(1, SMALLER_CAPACITY.len());
    small_unit_up_to(rng, t, SMALLER_CAPACITY[t - 1])
}

/// A small unit of T hours and up to this capacity.
fn small_unit_up_to(rng: &mut Rng, t: usize, most: u16) -> Case {
    let capacity = rng.between16(1, most);
    let minimum = if rng.once_in(5) { capacity } else { rng.between16(1, capacity) };
    let money = rng.pick(&[Money::Even, Money::Ties, Money::Small, Money::Small, Money::Extreme]);
    unit(rng, t, minimum, capacity, money)
}

/// Most hours of a day that is not drawn with another number of them.
const DAY_HOURS: usize = 48;

/// A longer day with few outputs from minimum to capacity, for trying every commitment.
pub fn longer_day(rng: &mut Rng) -> Case {
    let t = rng.place(6, 13);
    let widest = match t {
        6 => 5,
        7 => 4,
        8 | 9 => 3,
        _ => 2,
    };
    let minimum = rng.between16(1, 12);
    let capacity = minimum + rng.between16(1, widest) - 1;
    let money = rng.pick(&[Money::Even, Money::Ties, Money::Small, Money::Small, Money::Extreme]);
    unit(rng, t, minimum, capacity, money)
}

/// A day of up to 48 hours with a small capacity, so that many of them take little time.
pub fn long_day(rng: &mut Rng) -> Case {
    let t = rng.place(10, DAY_HOURS);
    long_day_of(rng, t, 40)
}

/// One of T hours and up to this capacity.
pub fn long_day_of(rng: &mut Rng, t: usize, most: u16) -> Case {
    let capacity = rng.between16(1, most);
    let minimum = if rng.once_in(5) { capacity } else { rng.between16(1, capacity) };
    let money = rng.pick(&[Money::Even, Money::Ties, Money::Small, Money::Small, Money::Extreme]);
    unit(rng, t, minimum, capacity, money)
}

/// A day of T hours with few outputs from minimum to capacity.
pub fn narrow_day_of(rng: &mut Rng, t: usize) -> Case {
    let minimum = rng.between16(1, 12);
    let capacity = minimum + rng.between16(0, 3);
    let money = rng.pick(&[Money::Even, Money::Ties, Money::Small]);
    unit(rng, t, minimum, capacity, money)
}

/// A few hours of a large unit.
pub fn short_day(rng: &mut Rng) -> Case {
    let (t, capacity) = (rng.place(1, 4), rng.between16(260, 400));
    let minimum = rng.between16(1, 256);
    let money = rng.pick(&[Money::Even, Money::Realistic, Money::Extreme]);
    unit(rng, t, minimum, capacity, money)
}

/// A day of up to 48 hours of a unit of any size.
pub fn full_day(rng: &mut Rng) -> Case {
    let t = if rng.once_in(3) { DAY_HOURS } else { rng.place(1, DAY_HOURS) };
    full_day_of(rng, t)
}

/// One of T hours.
pub fn full_day_of(rng: &mut Rng, t: usize) -> Case {
    let capacity = if rng.once_in(4) { 400 } else { rng.between16(1, 400) };
    let minimum = match rng.below(5) {
        0 => capacity,
        1 => 1,
        2 => (capacity / 2).max(1),
        _ => rng.between16(1, capacity),
    };
    let money = match rng.below(6) {
        0 => Money::Even,
        1 => Money::Ties,
        2 => Money::Small,
        3 => Money::Extreme,
        _ => Money::Realistic,
    };
    unit(rng, t, minimum, capacity, money)
}

/// 168 hours of a unit of 400 MW with costs and prices at their limits, in some hours next to them or near
/// zero; once in two times ordered on-line all day.
pub fn limit_day(rng: &mut Rng) -> Case {
    let minimum = rng.pick(&[1, 2, 100, 200, 399, 400]);
    let mut case = unit(rng, MOST_HOURS, minimum, 400, Money::Extreme);
    let (low, high) = (*PRICES.start(), *PRICES.end());
    let pattern = rng.below(6);
    for k in 0..case.t {
        case.prices[k] = match pattern {
            0 | 1 => low,
            2 | 3 => high,
            4 => rng.pick(&[low, high]),
            _ => rng.pick(&[low, low, high, high, low + 1, high - 1, -1, 0, 1]),
        };
    }
    if rng.once_in(2) {
        case.orders[..case.t].fill(ON_LINE);
    }
    case
}

/// A unit with these limits, T hours and so much money.
fn unit(rng: &mut Rng, t: usize, minimum: u16, capacity: u16, money: Money) -> Case {
    let mut case = Case { capacity, minimum, t, ..Case::ZERO };
    case.ramp_up = ramp(rng, capacity);
    case.ramp_down = ramp(rng, capacity);
    case.min_up = minimum_time(rng);
    case.min_down = minimum_time(rng);
    set_trajectories(rng, &mut case);
    set_opening(rng, &mut case);
    set_money(rng, &mut case, money);
    set_orders(rng, &mut case);
    case
}

/// A ramp limit: tight, of the unit's size or as wide as can be.
fn ramp(rng: &mut Rng, capacity: u16) -> u16 {
    match rng.below(4) {
        0 => 1,
        1 => rng.between16(1, 3),
        2 => rng.between16(1, capacity),
        _ => rng.between16(1, 400),
    }
}

/// A minimum time: often short, so that several runs fit in a day, and often binding.
fn minimum_time(rng: &mut Rng) -> u16 {
    match rng.below(3) {
        0 => 1,
        1 => rng.between16(1, 4),
        _ => rng.between16(1, SHORT_TIME),
    }
}

/// Trajectories of 1 to 8 outputs, as the minimum output allows.
fn set_trajectories(rng: &mut Rng, case: &mut Case) {
    let most = usize::from(case.minimum).min(8);
    case.ud = stages(rng, most);
    case.dd = stages(rng, most);
    let start_up = rising_outputs(rng, case.minimum, case.ud);
    let shut_down = rising_outputs(rng, case.minimum, case.dd);
    case.pu[..case.ud].copy_from_slice(&start_up);
    case.pd[..case.dd].copy_from_slice(&shut_down);
    case.pd[..case.dd].reverse();
}

/// A number of stages: 1, as many as there may be, or any.
fn stages(rng: &mut Rng, most: usize) -> usize {
    match rng.below(4) {
        0 => 1,
        1 => most,
        2 => rng.place(1, most.min(3)),
        _ => rng.place(1, most),
    }
}

/// So many outputs, strictly rising from 1 or more to the minimum output.
fn rising_outputs(rng: &mut Rng, minimum: u16, count: usize) -> Vec<u16> {
    let mut outputs = vec![minimum];
    while outputs.len() < count {
        let output = rng.between16(1, minimum);
        if !outputs.contains(&output) {
            outputs.push(output);
        }
    }
    outputs.sort_unstable();
    outputs
}

/// Once in four times inside a start or a stop, if the unit has stages for it, and else outside.
fn set_opening(rng: &mut Rng, case: &mut Case) {
    open_outside(rng, case);
    if rng.once_in(4) {
        open_inside(rng, case);
    }
}

/// Opens the day inside a start or a stop, if the unit has stages for it.
pub fn open_inside(rng: &mut Rng, case: &mut Case) {
    let rises = case.ud > 1 && (case.dd == 1 || rng.once_in(2));
    if rises {
        let stage = rng.place(1, case.ud - 1);
        (case.up_stage, case.down_stage) = (stage as u8, 0);
        (case.p0, case.h) = (case.pu[stage - 1], stage as u16);
    } else if case.dd > 1 {
        let stage = rng.place(2, case.dd);
        (case.up_stage, case.down_stage) = (0, stage as u8);
        case.p0 = case.pd[stage - 1];
        case.h = hours_in_state(rng, (case.ud + stage - 1) as u16);
    }
}

/// Opens the day outside a start and a stop, off-line or on-line.
fn open_outside(rng: &mut Rng, case: &mut Case) {
    (case.up_stage, case.down_stage) = (0, 0);
    if rng.once_in(3) {
        (case.p0, case.h) = (0, hours_in_state(rng, 1));
    } else {
        open_on_line(rng, case);
    }
}

/// Opens the day on-line outside a start and a stop: p(0) at the minimum output, near it, at capacity or anywhere.
pub fn open_on_line(rng: &mut Rng, case: &mut Case) {
    let near = case.capacity.min(case.minimum + 2);
    (case.up_stage, case.down_stage) = (0, 0);
    case.p0 = match rng.below(4) {
        0 => case.minimum,
        1 => rng.between16(case.minimum, near),
        2 => case.capacity,
        _ => rng.between16(case.minimum, case.capacity),
    };
    case.h = hours_in_state(rng, case.ud as u16);
}

/// Hours on-line or off-line, near the least that there may be and near the times that matter.
fn hours_in_state(rng: &mut Rng, least: u16) -> u16 {
    match rng.below(4) {
        0 => least,
        1 => rng.between16(least, least + 2),
        2 => rng.between16(least, 16),
        _ => rng.between16(least, HOURS_IN_STATE),
    }
}

/// F, A, B, C and the prices.
fn set_money(rng: &mut Rng, case: &mut Case, money: Money) {
    let (f, a, b, c) = match money {
        Money::Even => (rng.pick(&[0, 0, 1, 5, 10]), 0, 0, rng.pick(&[0, 0, 0, 1])),
        Money::Ties => (rng.pick(&[0, 0, 1, 5, 10]), small_cost(rng), small_cost(rng), small_cost(rng)),
        Money::Small => {
            (rng.between32(5, 40), rng.between32(0, 8), rng.between32(0, 40), rng.between32(0, 40))
        }
        Money::Realistic => (
            rng.between32(10_000, 55_000),
            rng.between32(0, 400_000),
            rng.between32(0, 3_000_000),
            rng.between32(0, 500_000),
        ),
        Money::Extreme => (extreme(rng, 1_000_000), extreme_cost(rng), extreme_cost(rng), extreme_cost(rng)),
    };
    (case.f, case.a, case.b, case.c) = (f, a, b, c);
    let flat = rng.once_in(8);
    let first = price(rng, f, money);
    for k in 0..case.t {
        case.prices[k] = if flat { first } else { price(rng, f, money) };
    }
    if rng.once_in(4) {
        set_old_prices(case);
    }
}

/// Makes the case one that a file of the old form can hold.
pub fn set_old(rng: &mut Rng, case: &mut Case) {
    set_old_prices(case);
    clear_stages(rng, case);
}

/// Opens the day outside a start and a stop, if it does not.
pub fn clear_stages(rng: &mut Rng, case: &mut Case) {
    if case.up_stage > 0 || case.down_stage > 0 {
        open_outside(rng, case);
    }
}

/// Brings every price to the nearest one that a file of the old form can hold.
fn set_old_prices(case: &mut Case) {
    for price in &mut case.prices[..case.t] {
        *price = (*price).clamp(*OLD_PRICES.start(), *OLD_PRICES.end());
    }
}

/// Brings the price of an hour below zero, and those of some other hours or of all.
pub fn set_below_zero(rng: &mut Rng, case: &mut Case) {
    let (first, share) = (rng.place(0, case.t - 1), rng.between(1, 4));
    for (k, price) in case.prices[..case.t].iter_mut().enumerate() {
        if k == first || rng.once_in(share) {
            *price = match rng.below(3) {
                0 => -1,
                1 => -price.abs().max(1),
                _ => (*price - 2 * case.f).clamp(*PRICES.start(), -1),
            };
        }
    }
}

/// Makes lists earn the same: every price is F and an on-line hour is free, so that only starts and stops cost, if
/// they do.
pub fn set_no_margin(rng: &mut Rng, case: &mut Case) {
    case.a = 0;
    if rng.once_in(2) {
        (case.b, case.c) = (0, 0);
    }
    case.prices[..case.t].fill(case.f);
}

/// Gives every hour one price, so that outputs can change places and earn the same.
pub fn set_one_price(case: &mut Case) {
    let price = case.prices[0];
    case.prices[..case.t].fill(price);
}

/// A cost that is mostly 0.
fn small_cost(rng: &mut Rng) -> i32 {
    rng.pick(&[0, 0, 0, 1, 2, 3])
}

/// 0, the limit, the number below it, or anything up to it.
fn extreme(rng: &mut Rng, limit: i32) -> i32 {
    match rng.below(4) {
        0 => 0,
        1 => limit,
        2 => limit - 1,
        _ => rng.between32(0, limit),
    }
}

/// A cost up to 100,000,000.
fn extreme_cost(rng: &mut Rng) -> i32 {
    extreme(rng, 100_000_000)
}

/// A limit of the prices, a number next to one, or anything within.
fn extreme_price(rng: &mut Rng) -> i32 {
    let (low, high) = (*PRICES.start(), *PRICES.end());
    match rng.below(4) {
        0 => rng.pick(&[low, low + 1, -65_536, -32_768, -1]),
        1 => rng.pick(&[0, 1, 32_767, 32_768, 65_535]),
        2 => rng.pick(&[65_536, high - 1, high]),
        _ => rng.between32(low, high),
    }
}

/// A price that suits F.
fn price(rng: &mut Rng, f: i32, money: Money) -> i32 {
    match money {
        Money::Even => f + rng.pick(&[0, 0, 0, 0, 0, 0, 1]) - rng.pick(&[0, 0, 0, 0, 0, 0, 1]),
        Money::Ties => f + rng.pick(&[0, 0, 0, 1, 2, 3]) - rng.pick(&[0, 0, 1, 2]),
        Money::Small if rng.once_in(3) => rng.between32(-f, 0),
        Money::Small => rng.between32(0, 2 * f),
        Money::Realistic => match rng.below(10) {
            0 => rng.between32(-2 * f, 0),
            1 => rng.between32(65_536, 20 * f),
            _ => rng.between32(f / 2, f + f / 2),
        },
        Money::Extreme => extreme_price(rng),
    }
}

/// Orders: all free, a few at random, many at random, or those of a day that the unit can run.
pub fn set_orders(rng: &mut Rng, case: &mut Case) {
    let share = match rng.below(6) {
        0..=2 => return,
        3 => 5,
        4 => return set_orders_of_walk(rng, case),
        _ => 2,
    };
    for k in 0..case.t {
        if rng.once_in(share) {
            case.orders[k] = rng.pick(&[ON_LINE, OFF_LINE]);
        }
    }
}

/// Orders that force parts of a day which the unit can run, or nearly can.
fn set_orders_of_walk(rng: &mut Rng, case: &mut Case) {
    let list = walk(rng, case);
    let share = rng.between(1, 4);
    for (k, &output) in list.iter().enumerate() {
        let order = if output > 0 { ON_LINE } else { OFF_LINE };
        case.orders[k] = if rng.once_in(share) { order } else { FREE };
    }
}
