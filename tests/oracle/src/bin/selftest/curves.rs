//! Cost curves: the known ones, tables against whole numbers and against the machine's floats, and the searches by a
//! table against each other.

use crate::{Tally, SEED};
use oracle::answers;
use oracle::best::{by_commitment_by, every_list_by};
use oracle::by_curve;
use oracle::case::Case;
use oracle::curve::{faults, filling, Curve, Fault, COSTS, CURVED, FLAT, STRAIGHT};
use oracle::curves::{accepted, any, curve, of_case};
use oracle::dp::{best_list, best_list_by, KeptLists};
use oracle::exact::Amount;
use oracle::known_curves::{known_days, known_entries, known_faults, Question, DAYS, ENTRIES, FAULTS};
use oracle::profit::Costs;
use oracle::random::Rng;
use oracle::stages::small_staged;
use oracle::units::{full_day, longer_day, small_unit};
use oracle::weeks::small_locked;
use std::hint::black_box;

/// Numbers of random curves and days.
const CURVES: u64 = 3_000;
const SMALL: u64 = 3_000;
const LONGER: u64 = 600;
const FULL: u64 = 60;
const PLAIN: u64 = 1_500;

/// The known entries, faults and days.
pub fn known(tally: &mut Tally) {
    tally.same("count", known_entries().len() as u64, ENTRIES);
    for row in known_entries() {
        let cost = faults(row.kind, &row.curve).map(|tested| tested.cost(row.n));
        tally.same(&format!("{:?} at {}", row.curve, row.n), cost.ok(), Some(row.cost));
    }
    tally.same("count", known_faults().len() as u64, FAULTS);
    for (kind, curve, fault) in known_faults() {
        tally.same(&format!("{kind} {curve:?}"), faults(kind, &curve).err(), fault);
        let number = if fault.is_some() { 16 } else { 0 };
        tally.same("number", filling(kind, &curve, COSTS).0, number);
        tally.same("short", filling(kind, &curve, COSTS - 1).0, number.max(10));
    }
    tally.same("count", known_days().len() as u64, DAYS);
    for day in known_days() {
        let (case, kind, curve) = (&day.case, day.kind, &day.curve);
        let table = match day.question {
            Question::Check(list, lent, answer) => {
                let given = by_curve::verdict(case, kind, curve, &list, lent);
                tally.same("check", given.answer, answer);
                given.table
            }
            Question::Best(lent, answer) => {
                for search in [best_list_by, every_list_by, by_commitment_by] {
                    let given = by_curve::schedule(case, kind, curve, lent, search);
                    tally.same("best", given.answer, answer.clone());
                }
                by_curve::schedule(case, kind, curve, lent, best_list_by).table
            }
        };
        tally.same("filled", !table.is_empty(), day.filled);
    }
}

/// The table that the machine's floats give.
fn by_machine(kind: u16, curve: &Curve) -> Vec<i64> {
    let Curve { a, b, c } = black_box(*curve);
    let float = |n: f64| match kind {
        FLAT => a,
        STRAIGHT => black_box(b * n) + a,
        _ => black_box(black_box(black_box(c * n) + b) * n) + a,
    };
    (0..COSTS).map(|n| float(n as f64).round_ties_even() as i64).collect()
}

/// Tables of random curves: as the machine's floats have them; never falling; each entry within half of the float; and
/// the formula in whole numbers where the coefficients are whole.
pub fn tables(tally: &mut Tally) -> String {
    let (mut ties, mut fused, mut whole) = (0, 0, 0);
    for index in 0..CURVES {
        let (kind, curve) = accepted(&mut Rng::for_index(SEED + 21, index));
        let tested = faults(kind, &curve).expect("the curve is accepted");
        let table = tested.table();
        let name = format!("{kind} {curve:?}");
        tally.same(&name, &table, &by_machine(kind, &curve));
        tally.same(&name, table.windows(2).all(|pair| pair[0] <= pair[1]), true);
        let floats: Vec<Amount> = (0..COSTS as u64).map(|n| tested.float(n)).collect();
        let near = |(float, &cost): (&Amount, &i64)| {
            let (twice, cost) = (float.times(2), Amount::whole(2 * cost as u64));
            let half = Amount::whole(1);
            twice.is_at_most(&cost.plus(&half)) && cost.is_at_most(&twice.plus(&half))
        };
        tally.same(&name, floats.iter().zip(&table).all(near), true);
        ties += u64::from(floats.iter().any(Amount::is_tie));
        fused += u64::from((0..COSTS as u64).any(|n| tested.fused(n).nearest_whole() != table[n as usize]));
        if curve.coefficients().iter().all(|number| number.fract() == 0.0) {
            let [a, b, c] = curve.coefficients().map(|number| number as i64);
            let formula: Vec<i64> = (0..COSTS as i64).map(|n| (c * n + b) * n + a).collect();
            tally.same(&name, &table, &formula);
            whole += 1;
        }
    }
    format!("; {ties} with a tie, {fused} otherwise if fused, {whole} whole")
}

/// Random curves with faults: 16 by the machine's comparisons too.
pub fn refused(tally: &mut Tally) -> String {
    let mut counts = [0; 6];
    for index in 0..4 * CURVES {
        let (kind, curve) = any(&mut Rng::for_index(SEED + 22, index));
        let coefficients = curve.coefficients();
        let used = usize::from(kind) + 1;
        let accepted = kind <= CURVED
            && coefficients.iter().take(used).all(|number| (0.0..=1_000_000.0).contains(number))
            && coefficients.iter().skip(used).all(|&number| number == 0.0);
        let fault = faults(kind, &curve).err();
        tally.same(&format!("{kind} {curve:?}"), fault.is_none(), accepted);
        let place = match fault {
            None => 0,
            Some(Fault::Kind) => 1,
            Some(Fault::NotANumber) => 2,
            Some(Fault::Negative) => 3,
            Some(Fault::Above) => 4,
            Some(Fault::Unused) => 5,
        };
        counts[place] += 1;
    }
    format!("; accepted, by kind, no number, negative, above, unused: {counts:?}")
}

/// The searches by a table: `dp` against every list and every commitment, and its list against the check.
pub fn searches(tally: &mut Tally) -> String {
    let (mut without_list, mut otherwise) = (0, 0);
    for index in 0..SMALL + LONGER + FULL {
        let mut rng = Rng::for_index(SEED + 23, index);
        let case = match index {
            0..SMALL if index % 3 == 0 => small_unit(&mut rng),
            0..SMALL if index % 3 == 1 => small_staged(&mut rng),
            0..SMALL => small_locked(&mut rng),
            _ if index < SMALL + LONGER => longer_day(&mut rng),
            _ => full_day(&mut rng),
        };
        let (kind, curve) = of_case(&mut rng, &case);
        let table = faults(kind, &curve).expect("the curve is accepted").table();
        let costs = Costs::Table(&table);
        let plan = best_list_by(&case, costs);
        if index < SMALL {
            tally.same("every list", &every_list_by(&case, costs), &plan);
        }
        if index < SMALL + LONGER {
            tally.same("every commitment", &by_commitment_by(&case, costs), &plan);
        }
        without_list += u64::from(plan.is_none());
        let Some(plan) = plan else {
            tally.same("no list at all", best_list(&case), None);
            continue;
        };
        otherwise += u64::from(best_list(&case).is_some_and(|other| other.list != plan.list));
        let passes = answers::Verdict { number: 0, hour: 0, rule: 0, profit: plan.profit };
        let checked = by_curve::verdict(&case, kind, &curve, &plan.list, COSTS);
        tally.same("the check", checked.answer, passes);
        let drawn = KeptLists::by(&case, costs).draw(&mut rng, &[]).expect("a list keeps the rules");
        let other = by_curve::verdict(&case, kind, &curve, &drawn, COSTS).answer.profit;
        let not_better = plan.profit > other || (plan.profit == other && plan.list <= drawn);
        tally.same("a drawn list", not_better, true);
    }
    format!("; {without_list} without a list, {otherwise} with another list than by F and A")
}

/// The straight curve of 2 A and F gives what F and A give.
pub fn plain(tally: &mut Tally) {
    for index in 0..PLAIN {
        let mut case = small_unit(&mut Rng::for_index(SEED + 24, index));
        case.a = case.a.min(500_000);
        let line = curve([2.0 * f64::from(case.a), f64::from(case.f), 0.0]);
        let table = faults(STRAIGHT, &line).expect("the curve is accepted").table();
        tally.same("plain", best_list_by(&case, Costs::Table(&table)), best_list(&case));
        let disregarded = Case { a: 7, f: 3, ..case };
        tally.same("disregarded", best_list_by(&disregarded, Costs::Table(&table)), best_list(&case));
    }
}
