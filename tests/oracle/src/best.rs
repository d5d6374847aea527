//! The best list (scope, "Quantities" to "Rules of a list", demand 3) by trying every list on
//! small units. Only the literal rules and the literal profit are asked; among equal earners
//! stands the list that is lower at the first hour where two differ.

use crate::case::Case;
use crate::profit::{profit_by, Costs};
use crate::rules::Day;

/// A best list with its profit in half-mills.
#[derive(Clone, Debug, PartialEq, Eq)]
pub struct Plan {
    pub profit: i64,
    pub list: Vec<u16>,
}

/// The largest output tried. No larger one keeps the rules: by (8) the sum of y(k-i+1) is 0 or 1
/// where v(k) is 1, so the right side of (3) is the capacity or a PU(i), which is no larger; where
/// v(k) is 0 the output is 0. One output above the capacity is tried all the same.
fn largest_tried(case: &Case) -> u16 {
    case.capacity + 1
}

/// Tries every list of T outputs from 0 to the capacity plus 1, lowest list first.
pub fn every_list(case: &Case) -> Option<Plan> {
    every_list_by(case, Costs::Plain)
}

/// The same with these costs.
pub fn every_list_by(case: &Case, costs: Costs) -> Option<Plan> {
    let mut day = Day::new(case);
    let mut list = vec![0; case.t];
    let mut best = None;
    loop {
        day.set_list(&list);
        if day.first_breach().is_none() {
            keep_better(&mut best, profit_by(case, costs, &list), &list);
        }
        if !advance(&mut list, largest_tried(case)) {
            return best;
        }
    }
}

/// Steps to the next list, last hour fastest; false after the highest list.
fn advance(list: &mut [u16], largest: u16) -> bool {
    for output in list.iter_mut().rev() {
        if *output < largest {
            *output += 1;
            return true;
        }
        *output = 0;
    }
    false
}

/// Keeps the list that earns more; among equal earners the lower one.
fn keep_better(best: &mut Option<Plan>, profit: i64, list: &[u16]) {
    let better = match best {
        None => true,
        Some(plan) => profit > plan.profit || (profit == plan.profit && *list < *plan.list),
    };
    if better {
        *best = Some(Plan { profit, list: list.to_vec() });
    }
}

/// The same search with prefixes left out, for longer days.
///
/// The lists are sorted by commitment, that is by which hours are on-line and by the stage of a stop
/// after T, if there is one, and every commitment is tried. A commitment settles v, y and z of all hours,
/// those past the prefix included. The rules at hour k then read nothing else than p(k-1) and p(k): each
/// of (1) to (4), (11) and (12) names p(k) alone, (5) and (6) name p(k) and p(k-1), (7) to (10) and 21 to
/// 23 name none. So if a rule breaks at hour k, it breaks in every list of this commitment with the same
/// outputs up to hour k, and none of them need be tried. Of the lists that are left, those count whose
/// last output gives the stop after T of the commitment.
pub fn by_commitment(case: &Case) -> Option<Plan> {
    by_commitment_by(case, Costs::Plain)
}

/// The same with these costs.
pub fn by_commitment_by(case: &Case, costs: Costs) -> Option<Plan> {
    let mut day = Day::new(case);
    let mut list = vec![0; case.t];
    let mut best = None;
    for on_line in 0..1u64 << case.t {
        day.set_commitment(on_line);
        for closing in day.closings() {
            day.set_closing(closing);
            if day.broken_at(0).is_none() {
                extend((case, costs), &mut day, (on_line, closing), 1, &mut list, &mut best);
            }
        }
    }
    best
}

/// Which hours are on-line, and the stage of a stop after T.
type Commitment = (u64, Option<usize>);

/// Tries every output of hour k within the commitment, and goes on where no rule breaks.
fn extend(
    (case, costs): (&Case, Costs),
    day: &mut Day,
    commitment: Commitment,
    k: usize,
    list: &mut [u16],
    best: &mut Option<Plan>,
) {
    let (on_line, closing) = commitment;
    if k > case.t {
        if day.closing() == closing && day.first_breach_from(k as i64).is_none() {
            keep_better(best, profit_by(case, costs, list), list);
        }
        return;
    }
    let is_on_line = on_line >> (k - 1) & 1 == 1;
    let outputs = if is_on_line { 1..=largest_tried(case) } else { 0..=0 };
    for output in outputs {
        day.set_output(k, output);
        list[k - 1] = output;
        if day.broken_at(k as i64).is_none() {
            extend((case, costs), day, commitment, k + 1, list, best);
        }
    }
}
