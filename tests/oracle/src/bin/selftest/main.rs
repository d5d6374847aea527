//! Holds the independent scheduler against the papers and against itself. Needs no library.

mod calendars;
mod curves;
mod files;
mod forecasts;
mod pairs;
mod searches;
mod stages;
mod weeks;

use oracle::answers;
use oracle::best::{by_commitment, every_list, Plan};
use oracle::case::Case;
use oracle::days::{self, Answer, KnownDay, Question};
use oracle::dp::best_list;
use oracle::known_prices;
use oracle::lists::any_list;
use oracle::random::Rng;
use oracle::rules::RULES;
use oracle::units::{full_day, limit_day, long_day, longer_day, small_unit};
use std::fmt::Debug;
use std::process::ExitCode;

/// Seed of all random cases.
const SEED: u64 = 0x5e1f_7e57;

/// Numbers of random cases.
const PRUNED: u64 = 3_000;
const SMALL_UNITS: u64 = 4_000;
const LONGER_DAYS: u64 = 1_200;
const FULL_DAYS: u64 = 400;
const LISTS: u64 = 40_000;

/// Counts of what passed and failed.
#[derive(Default)]
struct Tally {
    passed: u64,
    failed: u64,
}

impl Tally {
    /// Counts one comparison, and shows it if the two differ.
    fn same<N: PartialEq + Debug>(&mut self, what: &str, given: N, expected: N) {
        if given == expected {
            self.passed += 1;
        } else {
            self.failed += 1;
            println!("  FAILED {what}: {given:?}, expected {expected:?}");
        }
    }
}

/// The numbers of a known day's verdict or schedule.
fn answer_known_day(day: &KnownDay, search: fn(&Case) -> Option<Plan>) -> String {
    let case = &day.case;
    match &day.question {
        Question::Check(list) => format!("{:?}", answers::verdict(case, list)),
        Question::BestList => format!("{:?}", answers::schedule(case, answers::work(case), case.t, search)),
    }
}

/// The same numbers as the table has them.
fn expect_known_day(day: &KnownDay) -> String {
    let number = 0;
    match day.answer.clone() {
        Answer::Found { list, profit } => {
            format!("{:?}", answers::Schedule { number, profit, list })
        }
        Answer::Passes { profit } => {
            format!("{:?}", answers::Verdict { number, hour: 0, rule: 0, profit })
        }
        Answer::Breaks { hour, rule } => {
            format!("{:?}", answers::Verdict { number, hour, rule, profit: 0 })
        }
        Answer::Refused(number) => {
            format!("{:?}", answers::Schedule { number, profit: 0, list: Vec::new() })
        }
    }
}

/// The known days by trying every list; where a list is found, also by commitment and by `dp`, and
/// the found list through the check.
fn known_days(tally: &mut Tally) {
    for day in days::known_days() {
        tally.same(day.name, answer_known_day(&day, every_list), expect_known_day(&day));
        if let Question::BestList = day.question {
            tally.same(day.name, answer_known_day(&day, by_commitment), expect_known_day(&day));
        }
        by_dp_and_check(tally, &day);
    }
}

/// The known days at prices below zero and above 65,535 mills.
fn known_prices(tally: &mut Tally) {
    known_rows(tally, known_prices::known_prices(), known_prices::COUNT);
}

/// So many known days, those of few hours by trying every list too.
fn known_rows(tally: &mut Tally, days: Vec<KnownDay>, count: u64) {
    tally.same("count", days.len() as u64, count);
    for day in days {
        if day.case.t <= 4 {
            tally.same(day.name, answer_known_day(&day, every_list), expect_known_day(&day));
            tally.same(day.name, answer_known_day(&day, by_commitment), expect_known_day(&day));
        }
        by_dp_and_check(tally, &day);
    }
}

/// A known day by `dp`, and a list that is found through the check.
fn by_dp_and_check(tally: &mut Tally, day: &KnownDay) {
    tally.same(day.name, answer_known_day(day, best_list), expect_known_day(day));
    if let Answer::Found { list, profit } = &day.answer {
        let verdict = answers::Verdict { number: 0, hour: 0, rule: 0, profit: *profit };
        tally.same(day.name, answers::verdict(&day.case, list), verdict);
    }
}

/// The source's day: the printed list and the optimum.
fn source_day(tally: &mut Tally) {
    let case = days::source_day();
    let passes = answers::Verdict { number: 0, hour: 0, rule: 0, profit: days::SOURCE_PROFIT };
    tally.same("printed list", answers::verdict(&case, &days::SOURCE_LIST), passes);
    let plan = best_list(&case).expect("the source's day has a schedule");
    tally.same("optimum", plan.profit, days::SOURCE_PROFIT);
    tally.same("optimal list", answers::verdict(&case, &plan.list), passes);
}

/// The search by commitment against the one that tries every list.
fn pruned_searches(tally: &mut Tally) {
    for index in 0..PRUNED {
        let case = small_unit(&mut Rng::for_index(SEED + 1, index));
        tally.same("pruned", by_commitment(&case), every_list(&case));
    }
}

/// `dp` against the search that tries every list.
fn small_units(tally: &mut Tally) -> String {
    let (mut without_list, mut below_zero) = (0, 0);
    for index in 0..SMALL_UNITS {
        let case = small_unit(&mut Rng::for_index(SEED + 2, index));
        let plan = every_list(&case);
        without_list += u64::from(plan.is_none());
        below_zero += u64::from(case.prices[..case.t].iter().any(|&price| price < 0));
        tally.same("dp", best_list(&case), plan);
    }
    format!("; {without_list} without a list, {below_zero} with a price below zero")
}

/// `dp` against the search by commitment on longer days.
fn longer_days(tally: &mut Tally) -> String {
    let mut without_list = 0;
    for index in 0..LONGER_DAYS {
        let case = longer_day(&mut Rng::for_index(SEED + 3, index));
        without_list += u64::from(searches::by_every_commitment(tally, &case).is_none());
    }
    format!("; {without_list} without a list")
}

/// On full-size and long days the list of `dp` passes the check and earns what `dp` says.
fn full_days(tally: &mut Tally) -> String {
    let mut without_list = 0;
    for index in 0..FULL_DAYS {
        let mut rng = Rng::for_index(SEED + 4, index);
        let case = match index % 8 {
            0 => limit_day(&mut rng),
            1..=3 => full_day(&mut rng),
            _ => long_day(&mut rng),
        };
        without_list += u64::from(searches::by_the_check(tally, &case).is_none());
    }
    format!("; {without_list} without a list")
}

/// No list that passes earns more than `dp`, or the same with a lower list.
fn random_lists(tally: &mut Tally) -> String {
    let mut counts = [0; 24];
    for index in 0..LISTS {
        let mut rng = Rng::for_index(SEED + 5, index);
        let case = if index % 2 == 0 { small_unit(&mut rng) } else { longer_day(&mut rng) };
        let list = any_list(&mut rng, &case);
        let verdict = answers::verdict(&case, &list);
        if verdict.number == 0 {
            counts[verdict.rule as usize] += 1;
        }
        if (verdict.number, verdict.rule) == (0, 0) {
            let plan = best_list(&case).map(|plan| (plan.profit, plan.list));
            let not_better = plan.is_some_and(|(profit, best)| {
                profit > verdict.profit || (profit == verdict.profit && best <= list)
            });
            tally.same("not better than dp", not_better, true);
        }
    }
    let by_rule: Vec<String> =
        RULES.iter().map(|&rule| format!("{rule}: {}", counts[rule as usize])).collect();
    format!("; first breaches by rule {}", by_rule.join(", "))
}

/// Runs one group and prints its line.
fn group(name: &str, total: &mut Tally, run: impl FnOnce(&mut Tally) -> String) {
    let mut tally = Tally::default();
    let remark = run(&mut tally);
    println!("{name}: {} passed, {} failed{remark}", tally.passed, tally.failed);
    total.passed += tally.passed;
    total.failed += tally.failed;
}

/// A group without a remark.
fn plain(run: fn(&mut Tally)) -> impl FnOnce(&mut Tally) -> String {
    move |tally| {
        run(tally);
        String::new()
    }
}

/// Runs all groups; the exit status is 1 if anything failed.
fn main() -> ExitCode {
    let mut total = Tally::default();
    println!("seed {SEED:#x}");
    group("known days", &mut total, plain(known_days));
    group("known prices", &mut total, plain(known_prices));
    group("program's example", &mut total, plain(files::program_example));
    group("source's day", &mut total, plain(source_day));
    group("each form", &mut total, plain(files::each_form));
    group("refusal examples", &mut total, plain(files::refusal_examples));
    group("known files", &mut total, files::known);
    group("round trips", &mut total, files::round_trips);
    group("damaged files", &mut total, files::damaged);
    group("by commitment against every list", &mut total, plain(pruned_searches));
    group("dp against every list", &mut total, small_units);
    group("dp against by commitment", &mut total, longer_days);
    group("dp's lists on full-size and long days", &mut total, full_days);
    group("random lists against dp", &mut total, random_lists);
    group("known pairs", &mut total, plain(pairs::known));
    group("tie of the known pairs", &mut total, plain(pairs::tie));
    group("better of all lists", &mut total, pairs::folded);
    group("random pairs", &mut total, pairs::random);
    group("known calendars", &mut total, plain(calendars::known));
    group("random calendars", &mut total, calendars::random);
    group("known stages", &mut total, plain(stages::known));
    group("what a list leaves", &mut total, plain(stages::left_by_lists));
    group("dp against every list, inside a sequence", &mut total, stages::small);
    group("dp against by commitment, inside a sequence", &mut total, stages::longer);
    group("dp's lists on full-size days inside a sequence", &mut total, stages::full);
    group("lists kept without a stop after T", &mut total, plain(stages::kept_before));
    group("two days back to back", &mut total, stages::back_to_back);
    group("the best list, cut in two", &mut total, stages::cut_in_two);
    group("known weeks", &mut total, plain(weeks::known));
    group("rows of Table V", &mut total, plain(weeks::table_v));
    group("program's memory", &mut total, plain(weeks::program));
    group("dp against every list, long minimum times", &mut total, weeks::small);
    group("dp against by commitment, long minimum times", &mut total, weeks::longer);
    group("dp's lists on weeks", &mut total, weeks::full);
    group("drawn lists of weeks against dp", &mut total, weeks::drawn);
    group("the best list of a week, cut in two", &mut total, plain(weeks::cut_in_two));
    group("known curves", &mut total, plain(curves::known));
    group("tables of random curves", &mut total, curves::tables);
    group("curves with faults", &mut total, curves::refused);
    group("searches by a curve", &mut total, curves::searches);
    group("the curve of F and A", &mut total, plain(curves::plain));
    group("known forecasts", &mut total, plain(forecasts::known));
    group("forecasts that are changed", &mut total, plain(forecasts::changed));
    group("statements on forecasts, every list tried", &mut total, forecasts::small);
    println!("{} passed, {} failed", total.passed, total.failed);
    ExitCode::from(u8::from(total.failed > 0))
}
