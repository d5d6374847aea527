//! Days with prices below zero and above 65,535 mills (request F-2), worked out by hand. On the unit of the known days
//! an on-line hour costs 2 A = 2, a start 2 B = 6 and a stop 2 C = 4 half-mills; the margin of an hour is its price
//! less F = 10.

use crate::case::{Case, FREE, OFF_LINE, ON_LINE};
use crate::days::{found, known_unit, with_orders, KnownDay};

/// How many days there are.
pub const COUNT: u64 = 16;

/// All days.
pub fn known_prices() -> Vec<KnownDay> {
    [below_zero(), spikes(), at_the_limits()].concat()
}

/// Prices below zero. From 0 MW at price -5, margin -15, staying off-line earns 0. An order starts the unit all the
/// same: -15 (1 + 0) - 2 - 6 = -23. From 2 MW over two hours at -5, the unit shuts down: -15 (1 + 2) - 2 = -47, then
/// -15 (0 + 1) - 4 = -19, that is -66. Ordered on-line it closes on the way to a stop: -15 (2 + 2) - 2 = -62, then
/// -15 (1 + 2) - 2 = -47, that is -109. From 4 MW it goes down to the minimum output, and RD leaves no time for a stop:
/// -15 (3 + 4) - 2 = -107, then -15 (2 + 3) - 2 = -77. At prices -1 and 30 from
/// 2 MW, margins -11 and 20, it stays on-line: 3, 4 earns -11 (3 + 2) - 2 = -57, then 20 (4 + 3) - 2 = 138, that is 81;
/// 2, 3 earns -46 and 98, that is 52. At price 0 the energy is sold for nothing and costs F: ordered on-line, from 2 MW
/// to PD(2), -10 (1 + 2) - 2 = -32. At -1 it costs a mill more: -11 (1 + 2) - 2 = -35.
fn below_zero() -> Vec<KnownDay> {
    let low = [-5; 2];
    vec![
        found("off-line below zero", known_unit(0, &[-5]), &[0], 0),
        found("off-line below zero all day", known_unit(0, &[-5; 4]), &[0; 4], 0),
        found("ordered on-line below zero", with_orders(known_unit(0, &[-5]), &[ON_LINE]), &[1], -23),
        found("shut down below zero", known_unit(2, &low), &[1, 0], -66),
        found("kept on-line below zero", with_orders(known_unit(2, &low), &[ON_LINE; 2]), &[2, 1], -109),
        found("brought down below zero", with_orders(known_unit(4, &low), &[FREE, ON_LINE]), &[3, 2], -184),
        found("through a price below zero", known_unit(2, &[-1, 30]), &[3, 4], 81),
        found("price 0", with_orders(known_unit(2, &[0]), &[ON_LINE]), &[1], -32),
        found("price -1", with_orders(known_unit(2, &[-1]), &[ON_LINE]), &[1], -35),
    ]
}

/// Prices above 65,535 mills. From 0 MW at 65,536, margin 65,526: the start earns 65,526 (1 + 0) - 2 - 6 = 65,518. From
/// 4 MW it stays: 65,526 (4 + 4) - 2 = 524,206. An off-line order costs the spike: from 0 MW nothing is earned. After
/// -65,536, margin -65,546, a spike of 65,556, margin 65,546: from 2 MW, 3, 4 earns -65,546 * 5 - 2, then
/// 65,546 * 7 - 2, that is 65,546 * 2 - 4 = 131,088; 2, 3 earns 65,546 (5 - 4) - 4, which is less.
fn spikes() -> Vec<KnownDay> {
    vec![
        found("a start at a spike", known_unit(0, &[65_536]), &[1], 65_518),
        found("on-line at a spike", known_unit(4, &[65_536]), &[4], 524_206),
        found("ordered off-line at a spike", with_orders(known_unit(0, &[65_536]), &[OFF_LINE]), &[0], 0),
        found("a spike after its opposite", known_unit(2, &[-65_536, 65_556]), &[3, 4], 131_088),
    ]
}

/// Prices at their limits. Capacity and minimum output are 400, F is 1,000,000, A is 100,000,000, and the unit is
/// on-line for 48 hours at 400 MW. At 10,000,000 the margin is 9,000,000: each hour earns
/// 9,000,000 * 800 - 200,000,000 = 7,000,000,000, the day 336,000,000,000. Ordered on-line at -10,000,000 the margin is
/// -11,000,000: each hour costs 11,000,000 * 800 + 200,000,000 = 9,000,000,000, the day 432,000,000,000. Half the hours
/// at each earn 24 (7,000,000,000 - 9,000,000,000) = -48,000,000,000.
fn at_the_limits() -> Vec<KnownDay> {
    let (low, high) = ([-10_000_000; 48], [10_000_000; 48]);
    let half = [&low[..24], &high[..24]].concat();
    let ordered = |prices: &[i32]| with_orders(large_unit(prices), &[ON_LINE; 48]);
    vec![
        found("48 hours at the highest price", large_unit(&high), &[400; 48], 336_000_000_000),
        found("48 hours at the lowest price", ordered(&low), &[400; 48], -432_000_000_000),
        found("24 hours at each", ordered(&half), &[400; 48], -48_000_000_000),
    ]
}

/// A unit of 400 MW alone, at it from the start, with F and A at their limits.
fn large_unit(prices: &[i32]) -> Case {
    let mut case = Case {
        capacity: 400,
        minimum: 400,
        f: 1_000_000,
        a: 100_000_000,
        ud: 1,
        dd: 1,
        ..known_unit(400, prices)
    };
    (case.pu, case.pd) = ([0; 8], [0; 8]);
    (case.pu[0], case.pd[0]) = (400, 400);
    case
}
