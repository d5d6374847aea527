//! Weeks and long minimum times: the known ones, the longer cases of the source, and `dp` against trying
//! every list.

use crate::{known_rows, searches, Tally, SEED};
use oracle::answers::{self, Verdict};
use oracle::best::Plan;
use oracle::case::{Case, ON_LINE};
use oracle::days::{known_unit, with_orders, TABLE_V};
use oracle::dp::{best_list, KeptLists};
use oracle::file;
use oracle::known_weeks::{known_asked, known_searches, known_weeks, ASKED, COUNT, SEARCHES};
use oracle::opening::left;
use oracle::profit::profit;
use oracle::random::Rng;
use oracle::rules::first_breach;
use oracle::weeks::{full_week, largest_week, locked_week, longer_locked, narrow_week, small_locked};
use std::time::Instant;

/// Numbers of random cases.
const SMALL: u64 = 12_000;
const LONGER: u64 = 1_500;
const WEEKS: u64 = 300;
const LARGEST: u64 = 12;
const LISTS: u64 = 2_000;
const CUT: u64 = 200;

/// The known weeks, the searches in lent memory and the numbers that records ask for.
pub fn known(tally: &mut Tally) {
    known_rows(tally, known_weeks(), COUNT);
    tally.same("count", known_searches().len() as u64, SEARCHES);
    for row in known_searches() {
        let given = answers::schedule(&row.case, row.numbers, row.outputs, best_list);
        tally.same("zeroed", given.zeroed_numbers(&row.case), row.zeroed);
        tally.same("search", given, row.answer);
    }
    tally.same("count", known_asked().len() as u64, ASKED);
    for (case, asked) in known_asked() {
        tally.same("asked", answers::work(&case), asked);
    }
}

/// The rows of Table V: the best profit, which reaches the printed one less 0.05 dollar and rounds to it, by
/// a list that passes; and the text of the program, which begins with it.
pub fn table_v(tally: &mut Tally) {
    for row in TABLE_V {
        let (case, name) = (row.case(), format!("{} hours", 24 * row.days));
        let plan = best_list(&case).expect("the source's days have a schedule");
        tally.same(&name, plan.profit, row.profit);
        tally.same(&name, plan.profit >= row.least(), true);
        tally.same(&name, (plan.profit + 100) / 200, row.tenths);
        let passes = Verdict { number: 0, hour: 0, rule: 0, profit: plan.profit };
        tally.same(&name, answers::verdict(&case, &plan.list), passes);
        let file = file::write(&case).expect("the case is within the limits");
        let text = answers::program_text(&file, best_list);
        tally.same(&name, text.lines().next(), Some(&format!("profit {}", row.profit)[..]));
        tally.same(&name, text.lines().count(), 24 * row.days + 1);
    }
}

/// The program lends 8,192 numbers: a minimum time above 8 is refused by 10, also where there is no schedule.
pub fn program(tally: &mut Tally) {
    let text = |case: Case| answers::program_text(&file::write(&case).expect("within the limits"), best_list);
    let (free, none) = (known_unit(0, &[19]), with_orders(known_unit(0, &[10; 2]), &[0, ON_LINE]));
    let none = Case { h: 1, min_down: 8, ..none };
    for (min_up, min_down, wanted) in [
        (8, 2, "profit 1\n1 1 1\n"),
        (9, 2, "refused 10\n"),
        (1, 9, "refused 10\n"),
        (24, 24, "refused 10\n"),
    ] {
        tally.same("free", text(Case { min_up, min_down, ..free }), wanted.to_string());
    }
    tally.same("no schedule", text(none), "refused 11\n".to_string());
    tally.same("no schedule", text(Case { min_up: 9, ..none }), "refused 10\n".to_string());
    tally.same("no schedule", text(Case { min_down: 24, ..none }), "refused 10\n".to_string());
}

/// How many days there were, and how many of them without a list.
#[derive(Default)]
struct Counts {
    days: u64,
    without_list: u64,
}

impl Counts {
    /// Counts a day by its best list.
    fn add(&mut self, plan: Option<Plan>) {
        self.days += 1;
        self.without_list += u64::from(plan.is_none());
    }

    /// The counts in words.
    fn words(&self) -> String {
        format!("; {} of {} days without a list", self.without_list, self.days)
    }
}

/// `dp` against the search that tries every list, and that one against the search by commitment.
pub fn small(tally: &mut Tally) -> String {
    let mut counts = Counts::default();
    for index in 0..SMALL {
        let case = small_locked(&mut Rng::for_index(SEED + 15, index));
        counts.add(searches::by_every_list(tally, &case));
    }
    counts.words()
}

/// `dp` against the search by commitment on longer days.
pub fn longer(tally: &mut Tally) -> String {
    let mut counts = Counts::default();
    for index in 0..LONGER {
        let case = longer_locked(&mut Rng::for_index(SEED + 16, index));
        counts.add(searches::by_every_commitment(tally, &case));
    }
    counts.words()
}

/// On weeks the list of `dp` passes the check and earns what `dp` says; of the largest weeks, how long each
/// took.
pub fn full(tally: &mut Tally) -> String {
    let (mut counts, mut longest) = (Counts::default(), 0.0f64);
    for index in 0..WEEKS {
        let mut rng = Rng::for_index(SEED + 17, index);
        let case = if index % 2 == 0 { full_week(&mut rng) } else { locked_week(&mut rng) };
        counts.add(searches::by_the_check(tally, &case));
    }
    for index in 0..LARGEST {
        let case = largest_week(&mut Rng::for_index(SEED + 18, index));
        let begun = Instant::now();
        let plan = searches::by_the_check(tally, &case);
        longest = longest.max(begun.elapsed().as_secs_f64());
        counts.add(plan);
    }
    format!("{}; the largest take {:.0} ms at the most", counts.words(), 1e3 * longest)
}

/// No list that keeps the rules earns more than `dp`, or the same with a lower list; one drawn of a unit with
/// a minimum time an hour shorter keeps them, or breaks 21 or 22.
pub fn drawn(tally: &mut Tally) -> String {
    let mut counts = [0; 3];
    for index in 0..LISTS {
        let mut rng = Rng::for_index(SEED + 19, index);
        let case = narrow_week(&mut rng);
        let mut other = case;
        match rng.below(3) {
            0 => other.min_up -= u16::from(other.min_up > 1),
            1 => other.min_down -= u16::from(other.min_down > 1),
            _ => {}
        }
        let (best, kept) = (best_list(&case), KeptLists::new(&other));
        for _ in 0..4 {
            let Some(list) = kept.draw(&mut rng, &[]) else {
                continue;
            };
            let verdict = answers::verdict(&case, &list);
            let rule = match verdict.rule {
                0 => {
                    let not_better = best.as_ref().is_some_and(|plan| {
                        plan.profit > verdict.profit || (plan.profit == verdict.profit && plan.list <= list)
                    });
                    tally.same("not better than dp", not_better, true);
                    0
                }
                rule => {
                    tally.same("broken rule", matches!(rule, 21 | 22), true);
                    rule as usize - 20
                }
            };
            counts[rule] += 1;
        }
    }
    let [kept, up, down] = counts;
    format!("; {kept} keep the rules, {up} break 21, {down} break 22")
}

/// The best list of a week, cut after any hour: the first hours keep the rules of their day, and the rest of
/// it is the best list of the rest of the week, from the state that they leave.
pub fn cut_in_two(tally: &mut Tally) {
    for index in 0..CUT {
        let mut rng = Rng::for_index(SEED + 20, index);
        let case = narrow_week(&mut rng);
        let Some(plan) = best_list(&case) else {
            continue;
        };
        for _ in 0..8 {
            let hours = rng.place(1, case.t - 1);
            let first = Case { t: hours, ..case };
            let mut second = Case { t: case.t - hours, ..case };
            second.prices.copy_within(hours.., 0);
            second.orders.copy_within(hours.., 0);
            let (one, other) = plan.list.split_at(hours);
            let opened = left(&first, one).set(&second);
            let rest = Plan { profit: plan.profit - profit(&first, one), list: other.to_vec() };
            tally.same("the first hours", first_breach(&first, one), None);
            tally.same("the rest", best_list(&opened), Some(rest));
        }
    }
}
