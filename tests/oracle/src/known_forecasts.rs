//! Rows of prices (request F-8) worked out by hand: at two rows of the unit of the known days, and half-way, what the
//! best list is and earns, and what is earned and lost at a row by the best list of the other. The margin m of an hour
//! is its price less F = 10; an on-line hour costs 2 A = 2, a start 2 B = 6 and a stop 2 C = 4 half-mills. What is lost
//! at the two rows together is, in every row below, the sum of the rises times what the energies differ in.

use crate::answers::Schedule;
use crate::best::Plan;
use crate::case::{Case, FREE, OFF_LINE, ON_LINE};
use crate::curve::{filling, Curve, COSTS, CURVED};
use crate::curves::Drawn;
use crate::days::{known_unit, with_orders};
use crate::forecast::{Forecasts, Independent};
use crate::profit::Costs;

/// How many there are.
pub const COUNT: u64 = 19;

/// Two rows of prices and what is answered.
#[derive(Clone)]
pub struct KnownForecast {
    pub name: &'static str,
    /// The case at the first row, and the curve that it is searched by, if it is by one.
    pub case: Case,
    pub curve: Option<Drawn>,
    pub second: Vec<i32>,
    /// The answers of the search at the first row, at the second and half-way.
    pub best: [Schedule; 3],
    /// What the list of the first row earns at the second, and that of the second at the first; what is lost by each.
    pub carried: [i64; 2],
    pub lost: [i64; 2],
}

impl KnownForecast {
    /// What the independent scheduler answers with this search.
    pub fn answered(&self, search: fn(&Case, Costs) -> Option<Plan>) -> Forecasts {
        let table = self.curve.map(|(kind, curve)| filling(kind, &curve, COSTS).1);
        let mut independent = Independent { costs: Costs::by(table.as_deref()), search };
        Forecasts::ask(&self.case, &self.second, Vec::new(), &mut independent)
    }
}

/// A list that is found, and its profit.
type Found<'a> = (&'a [u16], i64);

/// A row whose three best lists are these.
fn found(
    name: &'static str,
    (case, second): (Case, &[i32]),
    best: [Found; 3],
    carried: [i64; 2],
    lost: [i64; 2],
) -> KnownForecast {
    let best = best.map(|(list, profit)| Schedule { number: 0, profit, list: list.to_vec() });
    KnownForecast { name, case, curve: None, second: second.to_vec(), best, carried, lost }
}

/// A row of a case for which there is no list at any prices.
fn without_list(name: &'static str, case: Case, second: &[i32]) -> KnownForecast {
    let best = [0; 3].map(|_| Schedule { number: 11, profit: 0, list: Vec::new() });
    KnownForecast { name, case, curve: None, second: second.to_vec(), best, carried: [0; 2], lost: [0; 2] }
}

/// All of them.
pub fn known_forecasts() -> Vec<KnownForecast> {
    [one_hour(), two_hours(), more_hours(), elsewhere()].concat()
}

/// Days of one hour. From 0 MW the unit starts, which earns m - 8, or stays at 0 MW. From 2 MW it earns 3 m - 2 on the
/// way to a stop, 4 m - 2 or 5 m - 2 at 3 MW; from 3 MW 5 m - 2, 6 m - 2 or 7 m - 2; from 4 MW 7 m - 2 or 8 m - 2.
fn one_hour() -> Vec<KnownForecast> {
    let off = |price: i32| known_unit(0, &[price]);
    let ordered = with_orders(off(-5), &[ON_LINE]);
    vec![
        // the same row twice
        found("equal rows", (off(19), &[19]), [(&[1], 1), (&[1], 1), (&[1], 1)], [1, 1], [0, 0]),
        // 2 * 1 = 0 + 2; at 18 the start earns 0 as well, and the lower list stands: nothing is lost by the other one
        found("a tie at a row", (off(18), &[20]), [(&[0], 0), (&[1], 2), (&[1], 1)], [0, 0], [2, 0]),
        // half-way at 18, where the start earns nothing
        found("a tie half-way", (off(10), &[26]), [(&[0], 0), (&[1], 8), (&[0], 0)], [0, -8], [8, 8]),
        // no price is lower, and the profit is the same
        found("off-line at both rows", (off(5), &[17]), [(&[0], 0), (&[0], 0), (&[0], 0)], [0, 0], [0, 0]),
        // one list alone keeps the order: twice -18 = -23 - 13
        found(
            "ordered below zero",
            (ordered, &[5]),
            [(&[1], -23), (&[1], -13), (&[1], -18)],
            [-13, -23],
            [0, 0],
        ),
        // half-way every list earns -2, and the lowest one is on the way to a stop
        found(
            "no margin half-way",
            (known_unit(2, &[6]), &[14]),
            [(&[1], -14), (&[3], 18), (&[1], -2)],
            [10, -22],
            [8, 8],
        ),
        // raised by 6: -8 + 6 * 3 <= 18 <= -8 + 6 * 5
        found(
            "raised, another list",
            (known_unit(2, &[8]), &[14]),
            [(&[1], -8), (&[3], 18), (&[3], 3)],
            [10, -12],
            [8, 4],
        ),
        // raised by 2: twice 8 more
        found(
            "raised, the same list",
            (known_unit(4, &[20]), &[22]),
            [(&[4], 78), (&[4], 94), (&[4], 86)],
            [94, 78],
            [0, 0],
        ),
        // m is -10,000,010 and 9,999,990
        found(
            "the limits",
            (known_unit(4, &[-10_000_000]), &[10_000_000]),
            [(&[3], -70_000_072), (&[4], 79_999_918), (&[3], -72)],
            [69_999_928, -80_000_082],
            [9_999_990, 10_000_010],
        ),
    ]
}

/// Days of two hours. From 2 MW, in energies of hours 1 and 2 and half-mills for hours, starts and stops: 1, 0 has 3, 1
/// and -6; 2, 1 has 4, 3; 2, 2 has 4, 4; 2, 3 has 4, 5; 3, 2 has 5, 5; 3, 3 has 5, 6; 3, 4 has 5, 7, each of them -4.
/// From 0 MW: 0, 1 has 0, 1 and -8; 1, 2 has 1, 3 and -10.
fn two_hours() -> Vec<KnownForecast> {
    vec![
        // m (-9, -1): -27 - 1 - 6; m (-1, 3): -5 + 21 - 4; half-way m (-5, 1): -20 + 5 - 4, where 1, 0 earns -20 and
        // 3, 4 -22: another list than at either row
        found(
            "another list half-way",
            (known_unit(2, &[1, 9]), &[9, 13]),
            [(&[1, 0], -34), (&[3, 4], 12), (&[2, 3], -19)],
            [-6, -56],
            [18, 22],
        ),
        // hour 2 alone rises, by 4: its energy goes from 1 to 7
        found(
            "one hour, more energy in it",
            (known_unit(2, &[9, 9]), &[9, 13]),
            [(&[1, 0], -10), (&[3, 4], 12), (&[3, 4], -2)],
            [-6, -16],
            [18, 6],
        ),
        // lower in hour 1 and higher in hour 2: m (20, -2) and (-20, 10), half-way (0, 4)
        found(
            "lower and higher",
            (known_unit(0, &[30, 8]), &[-10, 20]),
            [(&[1, 2], 4), (&[0, 1], 2), (&[1, 2], 2)],
            [0, -10],
            [2, 14],
        ),
        // all prices below zero: m (-15, -15) and (-11, -13); the stop is in time at each
        found(
            "below zero",
            (known_unit(2, &[-5, -5]), &[-1, -3]),
            [(&[1, 0], -66), (&[1, 0], -52), (&[1, 0], -59)],
            [-52, -66],
            [0, 0],
        ),
        // on-line for two hours of a minimum up time of four, so that 1, 0 breaks 21, whatever the prices are
        found(
            "a minimum up time",
            (Case { min_up: 4, ..known_unit(2, &[9, 9]) }, &[-1, -3]),
            [(&[2, 1], -11), (&[2, 1], -87), (&[2, 1], -49)],
            [-87, -11],
            [0, 0],
        ),
    ]
}

/// A unit at 10 MW or off-line, with a start of 1, 2 and 10 MW and a stop from 10 MW at once, which has one run or the
/// other.
pub fn two_run_unit(prices: &[i32]) -> Case {
    let (pu, pd) = ([1, 2, 10, 0, 0, 0, 0, 0], [10, 0, 0, 0, 0, 0, 0, 0]);
    Case { capacity: 10, minimum: 10, ud: 3, dd: 1, h: 3, pu, pd, ..known_unit(10, prices) }
}

/// Days of three and four hours, the first row that of case 7. From 3 MW, in energies: 2, 1, 0 has 5, 3, 1 and -8;
/// 2, 3, 4 has 5, 5, 7 and -6; 3, 4, 4 has 6, 7, 8 and -6. From 10 MW of the unit with two runs: 0, 1, 2, 10 has 10, 1,
/// 3, 12 and 10, 0, 1, 2 has 20, 10, 1, 3, both -16; 10, 0, 0, 1 has 20, 10, 0, 1 and -14.
fn more_hours() -> Vec<KnownForecast> {
    vec![
        // m (-5, -5, 15): -25 - 25 + 105 - 6 = 49, and so does 3, 4, 4; half-way, m (-5, -5, 5), 2, 3, 4 stands alone
        found(
            "case 7, hour 3 raised",
            (known_unit(3, &[5, 5, 5]), &[5, 5, 25]),
            [(&[2, 1, 0], -53), (&[2, 3, 4], 49), (&[2, 3, 4], -21)],
            [-33, -91],
            [82, 38],
        ),
        // hour 2 alone rises, from m (0, 30, -100, 60) by 20: its output falls from 1 to 0, its energy rises from 1 to
        // 10
        found(
            "one hour, less output in it",
            (two_run_unit(&[10, 40, -90, 70]), &[10, 60, -90, 70]),
            [(&[0, 1, 2, 10], 434), (&[10, 0, 1, 2], 564), (&[10, 0, 1, 2], 464)],
            [454, 364],
            [110, 70],
        ),
    ]
}

/// Cases 11 and 12, which no prices help; and the unit at 3 MW by a curve of 2 n n half-mills, by which 2, 3 and 4 MW
/// earn 5 p - 50, 6 p - 72 and 7 p - 98 at a price of p: in one hour another list half-way than at either row.
fn elsewhere() -> Vec<KnownForecast> {
    let case_11 = Case { h: 1, min_down: 2, ..with_orders(known_unit(0, &[10]), &[ON_LINE]) };
    let case_12 = with_orders(known_unit(0, &[10; 4]), &[OFF_LINE, ON_LINE, FREE, OFF_LINE]);
    let bent = found(
        "by a bend",
        (known_unit(3, &[20]), &[28]),
        [(&[2], 50), (&[4], 98), (&[3], 72)],
        [90, 42],
        [8, 8],
    );
    vec![
        without_list("case 11", case_11, &[10_000_000]),
        without_list("case 12", case_12, &[-30, 40, -50, 60]),
        KnownForecast { curve: Some((CURVED, Curve { a: 0.0, b: 0.0, c: 2.0 })), ..bent },
    ]
}
