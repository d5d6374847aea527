//! Profit in half-mills (scope, "Rules of a list"; (14) to (16) of the source), and by the table of a cost curve
//! (request F-7).

use crate::case::Case;

/// What the hours of a day cost beside their starts and stops: by F and A of the case, or by a table that has the cost
/// of an on-line hour for each number of half-megawatt-hours.
#[derive(Clone, Copy, Debug)]
pub enum Costs<'a> {
    Plain,
    Table(&'a [i64]),
}

impl<'a> Costs<'a> {
    /// By this table, or by F and A without one.
    pub fn by(table: Option<&'a [i64]>) -> Costs<'a> {
        table.map_or(Costs::Plain, Costs::Table)
    }

    /// The half-mills of an hour from the outputs at its two ends: 2 A v(k) + F n, or the table's entry for n, of which
    /// that for 0 is taken off in an off-line hour.
    fn of_hour(&self, case: &Case, before: u16, output: u16) -> i64 {
        let n = half_megawatt_hours(before, output);
        let on_line = output > 0;
        match self {
            Costs::Plain => 2 * i64::from(case.a) * i64::from(on_line) + i64::from(case.f) * n,
            Costs::Table(table) if on_line => table[n as usize],
            Costs::Table(table) => table[n as usize] - table[0],
        }
    }
}

/// The sum over the hours of
/// (price - F) (p(k) + p(k-1)) - 2 A v(k) - 2 B y(k) - 2 C z(k).
pub fn profit(case: &Case, list: &[u16]) -> i64 {
    profit_by(case, Costs::Plain, list)
}

/// The same with these costs in place of 2 A v(k) + F (p(k) + p(k-1)).
pub fn profit_by(case: &Case, costs: Costs, list: &[u16]) -> i64 {
    let mut before = case.p0;
    let mut sum = 0;
    for (i, &output) in list.iter().enumerate() {
        sum += hour_profit(case, costs, i + 1, before, output);
        before = output;
    }
    sum
}

/// The half-mills that hour k earns, from the outputs at the ends of hours k - 1 and k.
pub fn hour_profit(case: &Case, costs: Costs, k: usize, before: u16, output: u16) -> i64 {
    let on_line = output > 0;
    let start = on_line && before == 0;
    let stop = !on_line && before > 0;
    i64::from(case.prices[k - 1]) * half_megawatt_hours(before, output)
        - costs.of_hour(case, before, output)
        - 2 * i64::from(case.b) * i64::from(start)
        - 2 * i64::from(case.c) * i64::from(stop)
}

/// Energy of an hour, counted in half-megawatt-hours.
pub fn half_megawatt_hours(before: u16, output: u16) -> i64 {
    i64::from(before) + i64::from(output)
}
