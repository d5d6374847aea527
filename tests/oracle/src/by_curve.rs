//! The check and the search by a cost curve (request F-7): a table takes the place of F and A, which are still tested.
//! Both test 16 first, then the case, 9, 10 and 11.

use crate::answers::{Schedule, Verdict};
use crate::best::Plan;
use crate::case::Case;
use crate::curve::{self, Curve};
use crate::profit::{profit_by, Costs};
use crate::refusals;
use crate::rules::first_breach;

/// An answer, and the table that it leaves; none where the lent one is as it was.
#[derive(Clone, Debug, PartialEq, Eq)]
pub struct Filled<A> {
    pub answer: A,
    pub table: Vec<i64>,
}

/// The check of a list by a curve, with so many numbers lent for the table. A list that passes has at most 800
/// half-megawatt-hours in each hour, so a list that breaks a rule alone looks past the table, and has no profit.
pub fn verdict(case: &Case, kind: u16, curve: &Curve, list: &[u16], lent: usize) -> Filled<Verdict> {
    let tested = curve::tested(kind, curve).and_then(|tested| {
        refusals::record(case)?;
        refusals::list_length(case, list.len())?;
        curve::memory(lent)?;
        Ok(tested.table())
    });
    let table = match tested {
        Ok(table) => table,
        Err(number) => {
            let answer = Verdict { number, hour: 0, rule: 0, profit: 0 };
            return Filled { answer, table: Vec::new() };
        }
    };
    let answer = match first_breach(case, list) {
        Some(breach) => Verdict { number: 0, hour: breach.hour, rule: breach.rule, profit: 0 },
        None => {
            let profit = profit_by(case, Costs::Table(&table), list);
            Verdict { number: 0, hour: 0, rule: 0, profit }
        }
    };
    Filled { answer, table }
}

/// Numbers and outputs that a search by a curve is lent: for the table, to work in, for the list.
#[derive(Clone, Copy, Debug, PartialEq, Eq)]
pub struct Lent {
    pub table: usize,
    pub numbers: usize,
    pub outputs: usize,
}

/// The search by a curve: 11 where `search` finds nothing, with the table filled.
pub fn schedule(
    case: &Case,
    kind: u16,
    curve: &Curve,
    lent: Lent,
    search: impl FnOnce(&Case, Costs) -> Option<Plan>,
) -> Filled<Schedule> {
    let tested = curve::tested(kind, curve).and_then(|tested| {
        refusals::record(case)?;
        curve::memory(lent.table)?;
        refusals::search_memory(case, lent.numbers, lent.outputs)?;
        Ok(tested.table())
    });
    match tested {
        Err(number) => {
            let answer = Schedule { number, profit: 0, list: Vec::new() };
            Filled { answer, table: Vec::new() }
        }
        Ok(table) => {
            let answer = match search(case, Costs::Table(&table)) {
                Some(plan) => Schedule { number: 0, profit: plan.profit, list: plan.list },
                None => Schedule { number: 11, profit: 0, list: Vec::new() },
            };
            Filled { answer, table }
        }
    }
}
