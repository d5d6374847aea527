//! The kinds of days that are searched, by their prices (request F-2) and by what the best list does in such hours.

use super::{kind, Kind};
use oracle::answers::Schedule;
use oracle::case::{Case, MOST_HOURS, ON_LINE};
use oracle::refusals::PRICES;

/// A day that was searched, and its answer.
pub struct Met {
    case: Case,
    answer: Schedule,
}

/// An hour of a best list.
struct Hour {
    price: i32,
    order: u8,
    before: u16,
    output: u16,
}

/// All kinds.
pub const KINDS: [Kind<Met>; 20] = [
    kind("a price below zero", |met| !met.every_price(|price| price >= 0)),
    kind("all prices below zero", |met| met.every_price(|price| price < 0)),
    kind("ordered on-line below zero", |met| met.some_hour(|hour| hour.is_ordered_below_zero())),
    kind("on-line below zero of its own", |met| met.some_hour(|hour| hour.is_kept_below_zero())),
    kind("off-line below zero, earning 0", |met| met.stays_off_below_zero()),
    kind("a start below zero", |met| met.some_hour(|hour| hour.price < 0 && hour.is_start())),
    kind("a stop below zero", |met| met.some_hour(|hour| hour.price < 0 && hour.is_stop())),
    kind("no list below zero", |met| met.answer.number == 11 && !met.every_price(|price| price >= 0)),
    kind("on-line above 65,535", |met| met.some_hour(|hour| hour.price > 65_535 && hour.output > 0)),
    kind("off-line above 65,535", |met| met.some_hour(|hour| hour.price > 65_535 && hour.output == 0)),
    kind("a start above 65,535", |met| met.some_hour(|hour| hour.price > 65_535 && hour.is_start())),
    kind("at the lower limit", |met| met.has(*PRICES.start())),
    kind("at the upper limit", |met| met.has(*PRICES.end())),
    kind("at both limits", |met| met.has(*PRICES.start()) && met.has(*PRICES.end())),
    kind("at both limits, 168 hours of 400 MW", |met| met.is_largest_at_both_limits()),
    kind("on-line for 168 hours at the lower limit", |met| met.is_on_line_at(*PRICES.start())),
    kind("on-line for 168 hours at the upper limit", |met| met.is_on_line_at(*PRICES.end())),
    kind("more than 2^32 earned", |met| met.answer.profit > 1 << 32),
    kind("more than 2^32 lost", |met| met.answer.profit < -(1 << 32)),
    kind("a loss", |met| met.answer.profit < 0),
];

impl Hour {
    /// Whether the unit starts or stops.
    fn is_start(&self) -> bool {
        self.before == 0 && self.output > 0
    }
    fn is_stop(&self) -> bool {
        self.before > 0 && self.output == 0
    }

    /// Whether it is on-line at a price below zero by an order, or without one.
    fn is_ordered_below_zero(&self) -> bool {
        self.price < 0 && self.output > 0 && self.order == ON_LINE
    }
    fn is_kept_below_zero(&self) -> bool {
        self.price < 0 && self.output > 0 && self.order != ON_LINE
    }
}

impl Met {
    /// A day with its answer.
    pub fn new(case: &Case, answer: &Schedule) -> Met {
        Met { case: *case, answer: answer.clone() }
    }

    /// The prices of hours 1 to T.
    fn prices(&self) -> &[i32] {
        &self.case.prices[..self.case.t.min(MOST_HOURS)]
    }

    /// Whether every price is such.
    fn every_price(&self, test: fn(i32) -> bool) -> bool {
        self.prices().iter().all(|&price| test(price))
    }

    /// Whether an hour has this price.
    fn has(&self, price: i32) -> bool {
        self.prices().contains(&price)
    }

    /// Whether an hour of the best list is such.
    fn some_hour(&self, test: fn(&Hour) -> bool) -> bool {
        let list = &self.answer.list;
        (0..list.len()).any(|i| {
            let before = if i == 0 { self.case.p0 } else { list[i - 1] };
            let (price, order) = (self.case.prices[i], self.case.orders[i]);
            test(&Hour { price, order, before, output: list[i] })
        })
    }

    /// Whether the unit is off-line all day, and would be at a price below zero otherwise.
    fn stays_off_below_zero(&self) -> bool {
        let off = self.case.p0 == 0 && self.answer.list.iter().all(|&output| output == 0);
        self.answer.number == 0 && off && self.answer.profit == 0 && self.every_price(|price| price < 0)
    }

    /// Whether both limits are prices of a day of the largest size.
    fn is_largest_at_both_limits(&self) -> bool {
        let largest = self.case.t == MOST_HOURS && self.case.capacity == 400;
        largest && self.has(*PRICES.start()) && self.has(*PRICES.end())
    }

    /// Whether the unit is on-line for 168 hours, all at this price.
    fn is_on_line_at(&self, price: i32) -> bool {
        let on = self.answer.list.iter().filter(|&&output| output > 0).count() == MOST_HOURS;
        on && self.prices().iter().all(|&other| other == price)
    }
}
