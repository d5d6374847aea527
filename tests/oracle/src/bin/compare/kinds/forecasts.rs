//! The kinds of rows of prices for one case (request F-8), by their prices and by what the answers at them do.

use super::{kind, Kind};
use crate::forecasts::Way;
use oracle::case::{Case, FREE, MOST_HOURS};
use oracle::forecast::{Forecasts, FIRST, HALF_WAY, SECOND};
use oracle::refusals::{PRICES, SHORT_TIME};

/// Two rows of a case and the one half-way, of which every statement holds.
pub struct Met {
    forecasts: Forecasts,
    /// The case with the orders that its lists keep.
    ordered: Case,
    by_curve: bool,
    by_calendar: bool,
}

/// All kinds.
pub const KINDS: [Kind<Met>; 47] = [
    kind("found at all rows", |met| met.is_found()),
    kind("11 at all rows", |met| !met.is_found()),
    kind("11, no price lower", |met| !met.is_found() && met.is_no_lower()),
    kind("equal rows", |met| met.is_found() && met.forecasts.amount(FIRST, SECOND) == Some(0)),
    kind("the same list at all rows, other prices", |met| met.is_one_list() && !met.is_one_row()),
    kind("another list half-way than at either row", |met| met.is_another_half_way()),
    kind("half-way the list of the first row alone", |met| met.is_half_way_as(FIRST, SECOND)),
    kind("half-way the list of the second row alone", |met| met.is_half_way_as(SECOND, FIRST)),
    kind("twice half-way is the sum, by one list", |met| met.is_one_list() && met.gap() == 0),
    kind("the sum, by two lists", |met| met.is_found() && !met.is_one_list() && met.gap() == 0),
    kind("less than the sum", |met| met.is_found() && met.gap() > 0),
    kind("a half-mill less", |met| met.is_found() && met.gap() == 1),
    kind("no price lower, the profit higher", |met| met.is_no_lower() && met.gain() > 0),
    kind("no price lower and one higher, the same profit", |met| {
        met.is_no_lower() && !met.is_one_row() && met.gain() == 0
    }),
    kind("no price lower, another list", |met| met.is_no_lower() && met.is_other_list()),
    kind("lower in one hour and higher in another", |met| {
        met.is_found() && !met.is_lower_nowhere(FIRST, SECOND) && !met.is_lower_nowhere(SECOND, FIRST)
    }),
    kind("another profit by the same list", |met| met.is_one_list() && met.gain() != 0),
    kind("the same profit by another list", |met| met.is_other_list() && met.gain() == 0),
    kind("a loss at a row, a profit at the other", |met| met.is_loss_and_profit()),
    kind("raised by one amount, the same list", |met| met.is_raised() && !met.is_other_list()),
    kind("raised, another list", |met| met.is_raised() && met.is_other_list()),
    kind("raised, less energy in an hour", |met| met.is_raised() && met.some_energy_falls()),
    kind("raised by 1 mill, another list", |met| {
        met.forecasts.amount(FIRST, HALF_WAY) == Some(1) && met.lists_differ(FIRST, HALF_WAY)
    }),
    kind("one hour raised, the same list", |met| met.one_hour(|_, _| true) && !met.is_other_list()),
    kind("one hour raised, more energy in it", |met| met.one_hour(Met::rises_in)),
    kind("one hour raised, its output falls", |met| met.one_hour(Met::falls_at)),
    kind("one hour raised, less energy in the day", |met| {
        met.one_hour(|_, _| true) && met.energy(FIRST) > met.energy(SECOND)
    }),
    kind("nothing lost by a list, by the other all that may be", |met| met.some_regret(|lost, _| lost == 0)),
    kind("a half-mill lost", |met| met.some_regret(|lost, _| lost == 1)),
    kind("less lost than may be", |met| met.some_regret(|lost, most| 0 < lost && lost < most)),
    kind("a drawn list earns as much at both rows as that half-way", |met| met.has_equal_list()),
    kind("every price below zero", |met| met.is_found() && met.every_price(|price| price < 0)),
    kind("a price below zero at one row alone", |met| met.is_below_zero_once()),
    kind("a row at the lower limit, one at the upper", |met| met.is_from_limit_to_limit()),
    kind("both limits in a row", |met| met.is_found() && met.has_both_limits()),
    kind("ordered hours", |met| met.is_found() && met.has_orders()),
    kind("from inside a start", |met| met.is_found() && met.ordered.up_stage > 0),
    kind("from inside a stop", |met| met.is_found() && met.ordered.down_stage > 0),
    kind("a minimum time above 8", |met| met.is_found() && met.has_long_time()),
    kind("168 hours", |met| met.is_found() && met.ordered.t == MOST_HOURS),
    kind("400 MW", |met| met.is_found() && met.ordered.capacity == 400),
    kind("by a curve", |met| met.is_found() && met.by_curve),
    kind("by a curve, another list half-way", |met| met.is_another_half_way() && met.by_curve),
    kind("by a curve, 11", |met| !met.is_found() && met.by_curve),
    kind("by a calendar", |met| met.is_found() && met.by_calendar),
    kind("by a calendar, another list half-way", |met| met.is_another_half_way() && met.by_calendar),
    kind("by a calendar, 11", |met| !met.is_found() && met.by_calendar),
];

impl Met {
    /// Rows with their answers, the way of asking, and the case with the orders that its lists keep.
    pub fn new(forecasts: Forecasts, way: Way, ordered: Case) -> Met {
        let (by_curve, by_calendar) = (matches!(way, Way::Curve(_)), matches!(way, Way::Calendar(_)));
        Met { forecasts, ordered, by_curve, by_calendar }
    }

    /// Whether a list was found at every row.
    fn is_found(&self) -> bool {
        self.forecasts.is_found()
    }

    /// Whether the lists of two rows differ.
    fn lists_differ(&self, one: usize, other: usize) -> bool {
        let rows = &self.forecasts.rows;
        self.is_found() && rows[one].best.list != rows[other].best.list
    }

    /// Whether the lists of the two rows differ, and whether those of all three are one.
    fn is_other_list(&self) -> bool {
        self.lists_differ(FIRST, SECOND)
    }
    fn is_one_list(&self) -> bool {
        self.is_found() && !self.is_other_list() && !self.lists_differ(FIRST, HALF_WAY)
    }

    /// Whether the list half-way is that of neither row, or that of one row and not of the other.
    fn is_another_half_way(&self) -> bool {
        self.lists_differ(FIRST, HALF_WAY) && self.lists_differ(SECOND, HALF_WAY)
    }
    fn is_half_way_as(&self, row: usize, other: usize) -> bool {
        self.lists_differ(other, HALF_WAY) && !self.lists_differ(row, HALF_WAY)
    }

    /// Whether no price of a row is lower than that of another.
    fn is_lower_nowhere(&self, from: usize, to: usize) -> bool {
        self.forecasts.rises(from, to).iter().all(|&rise| rise >= 0)
    }

    /// Whether no price of the second row is lower, and whether both rows are one.
    fn is_no_lower(&self) -> bool {
        self.is_lower_nowhere(FIRST, SECOND)
    }
    fn is_one_row(&self) -> bool {
        self.forecasts.amount(FIRST, SECOND) == Some(0)
    }

    /// What is earned more at the second row.
    fn gain(&self) -> i64 {
        self.forecasts.best(SECOND) - self.forecasts.best(FIRST)
    }

    /// How much less twice the profit half-way is than the sum of the two.
    fn gap(&self) -> i64 {
        self.forecasts.best(FIRST) + self.forecasts.best(SECOND) - 2 * self.forecasts.best(HALF_WAY)
    }

    /// Whether one row has a loss and the other a profit.
    fn is_loss_and_profit(&self) -> bool {
        let [first, second] = [FIRST, SECOND].map(|row| self.forecasts.best(row));
        first.min(second) < 0 && first.max(second) > 0
    }

    /// Whether the second row is the first with every price raised by one amount.
    fn is_raised(&self) -> bool {
        self.is_found() && self.forecasts.amount(FIRST, SECOND).is_some_and(|amount| amount > 0)
    }

    /// The energy of the list of a row.
    fn energy(&self, row: usize) -> i64 {
        self.forecasts.energies(row).iter().sum()
    }

    /// Whether an hour has less energy at the second row.
    fn some_energy_falls(&self) -> bool {
        let [first, second] = [FIRST, SECOND].map(|row| self.forecasts.energies(row));
        first.iter().zip(second).any(|(&here, there)| here > there)
    }

    /// Whether the price of one hour alone is higher at the second row, and the lists are such in that hour, by its
    /// place.
    fn one_hour(&self, test: fn(&Met, usize) -> bool) -> bool {
        let hour = self.forecasts.risen_hour(FIRST, SECOND);
        self.is_found() && hour.is_some_and(|hour| test(self, hour))
    }

    /// Whether the energy of an hour is higher at the second row, and whether its output is lower.
    fn rises_in(&self, hour: usize) -> bool {
        self.forecasts.energies(FIRST)[hour] < self.forecasts.energies(SECOND)[hour]
    }
    fn falls_at(&self, hour: usize) -> bool {
        let rows = &self.forecasts.rows;
        rows[FIRST].best.list[hour] > rows[SECOND].best.list[hour]
    }

    /// Whether what the list of one of the two rows loses at the other, where they differ, is such, beside the most
    /// that may be lost.
    fn some_regret(&self, test: fn(i64, i64) -> bool) -> bool {
        let is_such = |(from, to)| {
            let lost = self.forecasts.regret(from, to);
            lost.is_some_and(|lost| test(lost, self.forecasts.most_regret(from, to)))
        };
        self.is_other_list() && [(FIRST, SECOND), (SECOND, FIRST)].into_iter().any(is_such)
    }

    /// Whether another list than the three earns as much at the two rows together as that half-way.
    fn has_equal_list(&self) -> bool {
        let lists = &self.forecasts.lists;
        let most = 2 * self.forecasts.best(HALF_WAY);
        (3..lists.len())
            .any(|i| !lists[..3].contains(&lists[i]) && self.forecasts.earns_together(i) == Some(most))
    }

    /// Whether every price of the two rows is such.
    fn every_price(&self, test: fn(i32) -> bool) -> bool {
        [FIRST, SECOND].iter().all(|&row| self.forecasts.rows[row].prices.iter().all(|&price| test(price)))
    }

    /// Whether one row has a price below zero and the other none.
    fn is_below_zero_once(&self) -> bool {
        let below = |row: usize| self.forecasts.rows[row].prices.iter().any(|&price| price < 0);
        self.is_found() && below(FIRST) != below(SECOND)
    }

    /// Whether every price of one row is the lower limit, and of the other the upper.
    fn is_from_limit_to_limit(&self) -> bool {
        let all = |row: usize, limit| self.forecasts.rows[row].prices.iter().all(|price| price == limit);
        let is_such = |from, to| all(from, PRICES.start()) && all(to, PRICES.end());
        self.is_found() && (is_such(FIRST, SECOND) || is_such(SECOND, FIRST))
    }

    /// Whether both limits are prices of one row.
    fn has_both_limits(&self) -> bool {
        let has = |row: usize, limit| self.forecasts.rows[row].prices.contains(limit);
        [FIRST, SECOND].iter().any(|&row| has(row, PRICES.start()) && has(row, PRICES.end()))
    }

    /// Whether an hour is ordered.
    fn has_orders(&self) -> bool {
        self.ordered.orders[..self.ordered.t].iter().any(|&order| order != FREE)
    }

    /// Whether a minimum time is above 8 hours.
    fn has_long_time(&self) -> bool {
        self.ordered.min_up > SHORT_TIME || self.ordered.min_down > SHORT_TIME
    }
}
