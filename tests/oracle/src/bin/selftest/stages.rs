//! Days that open and close inside a sequence: the known ones, `dp` against trying every list, and two days back to
//! back against one list.

use crate::{known_rows, searches, Tally, SEED};
use oracle::best::Plan;
use oracle::case::{Case, MOST_HOURS};
use oracle::dp::{best_list, KeptLists};
use oracle::known_stages::{known_stages, left_by, COUNT};
use oracle::lists::{any_list, disturb};
use oracle::opening::left;
use oracle::profit::profit;
use oracle::random::Rng;
use oracle::refusals;
use oracle::rules::{closing, first_breach, Day};
use oracle::stages::{full_staged, longer_staged, small_staged};
use oracle::units::{longer_day, small_unit};

/// Numbers of random cases.
const SMALL: u64 = 12_000;
const LONGER: u64 = 2_000;
const FULL: u64 = 300;
const LISTS: u64 = 40_000;
const TWO_DAYS: u64 = 20_000;
const CUT: u64 = 4_000;

/// The known days inside a sequence.
pub fn known(tally: &mut Tally) {
    known_rows(tally, known_stages(), COUNT);
}

/// What the known lists leave for the next day, which opens with it and is not refused.
pub fn left_by_lists(tally: &mut Tally) {
    for (name, case, list, opening) in left_by() {
        tally.same(name, first_breach(&case, &list), None);
        tally.same(name, left(&case, &list), opening);
        tally.same(name, refusals::record(&opening.set(&case)), Ok(()));
    }
}

/// Counts of days by what they open and close with.
#[derive(Default)]
struct Counts {
    rising: u64,
    falling: u64,
    closing: u64,
    without_list: u64,
}

impl Counts {
    /// Counts a day with its best list.
    fn add(&mut self, case: &Case, plan: Option<Plan>) {
        self.rising += u64::from(case.up_stage > 0);
        self.falling += u64::from(case.down_stage > 0);
        match plan {
            None => self.without_list += 1,
            Some(plan) => self.closing += u64::from(closing(case, &plan.list).is_some()),
        }
    }

    /// The counts in words.
    fn words(&self) -> String {
        let Counts { rising, falling, closing, without_list } = self;
        let opened = format!("{rising} open in a start, {falling} in a stop");
        format!("; {opened}, {closing} close in a stop, {without_list} without a list")
    }
}

/// `dp` against the search that tries every list, and that one against the search by commitment.
pub fn small(tally: &mut Tally) -> String {
    let mut counts = Counts::default();
    for index in 0..SMALL {
        let case = small_staged(&mut Rng::for_index(SEED + 9, index));
        counts.add(&case, searches::by_every_list(tally, &case));
    }
    counts.words()
}

/// `dp` against the search by commitment on longer days.
pub fn longer(tally: &mut Tally) -> String {
    let mut counts = Counts::default();
    for index in 0..LONGER {
        let case = longer_staged(&mut Rng::for_index(SEED + 10, index));
        counts.add(&case, searches::by_every_commitment(tally, &case));
    }
    counts.words()
}

/// On full-size days the list of `dp` passes the check and earns what `dp` says.
pub fn full(tally: &mut Tally) -> String {
    let mut counts = Counts::default();
    for index in 0..FULL {
        let case = full_staged(&mut Rng::for_index(SEED + 11, index));
        counts.add(&case, searches::by_the_check(tally, &case));
    }
    counts.words()
}

/// A list that keeps the rules where no stop falls after T keeps them all the same.
pub fn kept_before(tally: &mut Tally) {
    for index in 0..LISTS {
        let mut rng = Rng::for_index(SEED + 12, index);
        let case = if index % 2 == 0 { small_unit(&mut rng) } else { longer_day(&mut rng) };
        let mut list = any_list(&mut rng, &case);
        list.resize(case.t, 0);
        let mut day = Day::new(&case);
        day.set_list(&list);
        day.set_closing(None);
        if day.first_breach().is_none() {
            tally.same("kept", first_breach(&case, &list), None);
        }
    }
}

/// Whether a day opens inside a start or a stop.
fn is_inside(case: &Case) -> bool {
    case.up_stage > 0 || case.down_stage > 0
}

/// A day after the first: the same unit at other prices and orders, whose opening is still to be set.
fn second_day(rng: &mut Rng, case: &Case) -> Case {
    let mut other = longer_day(rng);
    other.t = rng.place(1, other.t);
    let mut second = Case { t: other.t, prices: other.prices, orders: other.orders, ..*case };
    if rng.once_in(2) {
        second.orders.fill(0);
    }
    second
}

/// Both days as one, with the state that the first opens with.
fn joined(first: &Case, second: &Case) -> Case {
    let mut case = Case { t: first.t + second.t, ..*first };
    assert!(case.t <= MOST_HOURS);
    case.prices[first.t..case.t].copy_from_slice(&second.prices[..second.t]);
    case.orders[first.t..case.t].copy_from_slice(&second.orders[..second.t]);
    case
}

/// A list of a day: one that keeps the rules if there is one, a near miss of it, or any.
fn list_of(rng: &mut Rng, case: &Case) -> Vec<u16> {
    let kept = KeptLists::new(case).draw(rng, &[]);
    let mut list = kept.unwrap_or_else(|| any_list(rng, case));
    list.resize(case.t, 0);
    if rng.once_in(3) {
        disturb(rng, case, &mut list);
    }
    list
}

/// How two days back to back came out.
enum Outcome {
    FirstBreaks,
    SecondBreaks,
    BothPass,
}

/// Two lists as one keep the rules exactly if the first keeps those of its day, and the second those of the day that
/// opens with what the first leaves; the two profits add up to that of the one list.
pub fn back_to_back(tally: &mut Tally) -> String {
    let (mut counts, mut inside) = ([0; 3], 0);
    for index in 0..TWO_DAYS {
        let mut rng = Rng::for_index(SEED + 13, index);
        let first = if index % 2 == 0 { longer_staged(&mut rng) } else { small_staged(&mut rng) };
        let second = second_day(&mut rng, &first);
        let list = list_of(&mut rng, &first);
        let outcome = if first_breach(&first, &list).is_some() {
            let both = [list, list_of(&mut rng, &second)].concat();
            tally.same("the first breaks", first_breach(&joined(&first, &second), &both).is_some(), true);
            Outcome::FirstBreaks
        } else {
            let second = left(&first, &list).set(&second);
            inside += u64::from(is_inside(&second));
            after_first(tally, &mut rng, (&first, &list), &second)
        };
        counts[outcome as usize] += 1;
    }
    let [first, second, neither] = counts;
    format!("; {first} break in the first day, {second} in the second, {neither} in neither, {inside} cut a sequence")
}

/// A list of the day that opens with what a list that keeps the rules leaves, and the two as one.
fn after_first(tally: &mut Tally, rng: &mut Rng, (first, one): (&Case, &[u16]), second: &Case) -> Outcome {
    tally.same("left", refusals::record(second), Ok(()));
    let other = list_of(rng, second);
    let (whole, both) = (joined(first, second), [one, &other].concat());
    let keeps = first_breach(second, &other).is_none();
    tally.same("as one", first_breach(&whole, &both).is_none(), keeps);
    tally.same("profits", profit(first, one) + profit(second, &other), profit(&whole, &both));
    if !keeps {
        return Outcome::SecondBreaks;
    }
    tally.same("left by both", left(second, &other), left(&whole, &both));
    Outcome::BothPass
}

/// The best list of a day, cut after any hour: the rest of it is the best list of the rest of the day, from the state
/// that its first hours leave.
pub fn cut_in_two(tally: &mut Tally) -> String {
    let mut inside = 0;
    for index in 0..CUT {
        let mut rng = Rng::for_index(SEED + 14, index);
        let case = longer_staged(&mut rng);
        let Some(plan) = best_list(&case) else {
            continue;
        };
        for hours in 1..case.t {
            let (first, second) = (Case { t: hours, ..case }, rest_of(&case, hours));
            let (one, other) = plan.list.split_at(hours);
            let opened = left(&first, one).set(&second);
            inside += u64::from(is_inside(&opened));
            let rest = Plan { profit: plan.profit - profit(&first, one), list: other.to_vec() };
            tally.same("the first hours", first_breach(&first, one), None);
            tally.same("the rest", best_list(&opened), Some(rest));
        }
    }
    format!("; {inside} cut inside a sequence")
}

/// The hours of a day after so many.
fn rest_of(case: &Case, hours: usize) -> Case {
    let mut rest = Case { t: case.t - hours, ..*case };
    rest.prices.copy_within(hours.., 0);
    rest.orders.copy_within(hours.., 0);
    rest
}
