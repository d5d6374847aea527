//! The days that are timed.

use giqapsun::boundary::{OFF, ON};
use giqapsun::{Case, HOURS};

/// Prices of the source's Table III, in mills.
const SOURCE_PRICES: [i32; 24] = [
    26950, 25817, 22209, 21219, 19668, 19800, 24167, 26950, 40700, 44110, 45177, 47025, 47773, 46200, 44033,
    44550, 46200, 48950, 48840, 45100, 43252, 44000, 44000, 25850,
];

/// The source's unit over so many hours, its prices repeated.
pub fn source(hours: usize) -> Case {
    let mut prices = [0; HOURS];
    for (k, price) in prices.iter_mut().enumerate().take(hours) {
        *price = SOURCE_PRICES[k % 24];
    }
    let mut case = wide(0, hours);
    case.capacity = 294;
    case.minimum = 112;
    case.rampup = 60;
    case.rampdown = 50;
    case.minup = 3;
    case.mindown = 3;
    case.variable = 38_000;
    case.fixed = 100_000;
    case.startcost = 850_000;
    case.stopcost = 56_000;
    case.initial = 170;
    case.elapsed = 11;
    case.rise = [37, 75, 112, 0, 0, 0, 0, 0];
    case.fall = [112, 70, 30, 0, 0, 0, 0, 0];
    case.rises = 3;
    case.falls = 3;
    case.prices = prices;
    case
}

/// Random numbers from 0 on, of so many, the same in every run.
fn random(count: u64) -> impl Iterator<Item = i32> {
    let mut state = 0x9e37_79b9_7f4a_7c15u64;
    std::iter::repeat_with(move || {
        state ^= state << 13;
        state ^= state >> 7;
        state ^= state << 17;
        (state % count) as i32
    })
}

/// Capacity 400, minimum 1, both ramps as given, trajectories of one entry, minimum times 8, random prices.
fn wide(ramp: u16, hours: usize) -> Case {
    let mut prices = [0; HOURS];
    for (price, number) in prices.iter_mut().take(hours).zip(random(60_000)) {
        *price = number;
    }
    Case {
        capacity: 400,
        minimum: 1,
        rampup: ramp,
        rampdown: ramp,
        minup: 8,
        mindown: 8,
        variable: 30_000,
        fixed: 100_000,
        startcost: 850_000,
        stopcost: 56_000,
        initial: 0,
        elapsed: 8,
        upstage: 0,
        downstage: 0,
        rise: [1, 0, 0, 0, 0, 0, 0, 0],
        fall: [1, 0, 0, 0, 0, 0, 0, 0],
        prices,
        orders: [0; HOURS],
        rises: 1,
        falls: 1,
        hours,
    }
}

/// The same over a week, with minimum times as given.
fn week(ramp: u16, time: u16) -> Case {
    Case { minup: time, mindown: time, elapsed: time, ..wide(ramp, HOURS) }
}

/// 400 outputs, ramps 400, and prices that pay for the second and third hour of four: the plan goes up, to the
/// capacity, down and off-line in each four hours, which the minimum times just allow.
fn wave() -> Case {
    let mut case = wide(400, 48);
    for (k, price) in case.prices[..48].iter_mut().enumerate() {
        *price = if k % 4 == 1 || k % 4 == 2 { 50_000 } else { 0 };
    }
    Case { minup: 3, mindown: 1, startcost: 1_000, stopcost: 1_000, ..case }
}

/// 400 outputs, ramps 100, and random prices of which about two in five are below zero; in every seventh hour the price
/// is at a limit, the upper and the lower one in turn.
fn below_zero() -> Case {
    let mut case = wide(100, 48);
    for ((k, price), number) in case.prices[..48].iter_mut().enumerate().zip(random(100_000)) {
        *price = match k % 14 {
            6 => 10_000_000,
            13 => -10_000_000,
            _ => number - 40_000,
        };
    }
    case
}

/// 400 outputs, ramps 400, minimum down time 1, on-line for `elapsed` hours at the minimum output. Orders
/// keep the unit off-line in one hour of every so many, first in hour `first`, counted from 0, and on-line in
/// all others.
fn stops(hours: usize, minup: u16, elapsed: u16, every: usize, first: usize) -> Case {
    let mut case = wide(400, hours);
    for (k, order) in case.orders[..hours].iter_mut().enumerate() {
        *order = if k % every == first { OFF } else { ON };
    }
    Case { minup, mindown: 1, initial: 1, elapsed, ..case }
}

/// 393 outputs above trajectories of eight entries each, ramps 100, random prices.
fn long_sequences() -> Case {
    Case {
        minimum: 8,
        rise: [1, 2, 3, 4, 5, 6, 7, 8],
        fall: [8, 7, 6, 5, 4, 3, 2, 1],
        rises: 8,
        falls: 8,
        ..wide(100, 48)
    }
}

/// The same, from the first entry of the start-up.
fn in_start() -> Case {
    Case { initial: 1, elapsed: 1, upstage: 1, ..long_sequences() }
}

/// The same, with prices in the last hours that bring the unit down: it closes inside the shut-down.
fn to_stop() -> Case {
    let mut case = long_sequences();
    case.prices[36..44].fill(60_000);
    case.prices[44..].fill(0);
    case
}

/// The days that are timed by a curve, with their names.
pub fn by_curve() -> Vec<(&'static str, Case)> {
    vec![
        ("(a) the source's day, 24 h", source(24)),
        ("(c) 400 outputs, ramps 400, 48 h", wide(400, 48)),
        ("(m) 400 outputs, ramps 100, 48 h", wide(100, 48)),
        ("(d) 400 outputs, ramps 20, 48 h", wide(20, 48)),
        ("(w) 400 outputs, the most row steps, 48 h", stops(48, 8, 6, 9, 2)),
        ("(u) ramps 400, minimum times 8, 168 h", week(400, 8)),
        ("(r) ramps 100, minimum times 8, 168 h", week(100, 8)),
        ("(v) ramps 20, minimum times 8, 168 h", week(20, 8)),
        ("(x) the most row steps, 168 h", stops(168, 24, 20, 27, 6)),
    ]
}

/// Every day with its name.
pub fn all() -> Vec<(&'static str, Case)> {
    vec![
        ("(a) the source's day, 24 h", source(24)),
        ("(b) the source's day twice, 48 h", source(48)),
        ("(c) 400 outputs, ramps 400, 48 h", wide(400, 48)),
        ("(d) 400 outputs, ramps 20, 48 h", wide(20, 48)),
        ("(m) 400 outputs, ramps 100, 48 h", wide(100, 48)),
        ("(n) 400 outputs, prices below zero, 48 h", below_zero()),
        ("(g) 400 outputs, the most starts, 48 h", wave()),
        ("(w) 400 outputs, the most row steps, 48 h", stops(48, 8, 6, 9, 2)),
        ("(s) 393 outputs, from a start-up, 48 h", in_start()),
        ("(t) 393 outputs, to a shut-down, 48 h", to_stop()),
        ("(e) the source's week, 168 h", source(168)),
        ("(p) ramps 400, minimum times 24, 168 h", week(400, 24)),
        ("(q) ramps 20, minimum times 24, 168 h", week(20, 24)),
        ("(u) ramps 400, minimum times 8, 168 h", week(400, 8)),
        ("(v) ramps 20, minimum times 8, 168 h", week(20, 8)),
        ("(x) the most row steps, 168 h", stops(168, 24, 20, 27, 6)),
        ("(y) near the most in 8,192 numbers, 168 h", stops(168, 8, 6, 10, 2)),
    ]
}
