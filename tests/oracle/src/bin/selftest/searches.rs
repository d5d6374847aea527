//! The searches of a day, each held against another, and a best list against the check. Each gives the best list of
//! the day, for the counts of its caller.

use crate::Tally;
use oracle::answers::{self, Verdict};
use oracle::best::{by_commitment, every_list, Plan};
use oracle::case::Case;
use oracle::dp::best_list;

/// `dp` against the search that tries every list, and that one against the search by commitment.
pub fn by_every_list(tally: &mut Tally, case: &Case) -> Option<Plan> {
    let plan = every_list(case);
    tally.same("by commitment", &by_commitment(case), &plan);
    tally.same("dp", &best_list(case), &plan);
    plan
}

/// `dp` against the search by commitment.
pub fn by_every_commitment(tally: &mut Tally, case: &Case) -> Option<Plan> {
    let plan = by_commitment(case);
    tally.same("dp", &best_list(case), &plan);
    plan
}

/// The list of `dp` passes the check and earns what `dp` says.
pub fn by_the_check(tally: &mut Tally, case: &Case) -> Option<Plan> {
    let plan = best_list(case)?;
    let passes = Verdict { number: 0, hour: 0, rule: 0, profit: plan.profit };
    tally.same("dp's list", answers::verdict(case, &plan.list), passes);
    Some(plan)
}
