//! Two lists side by side: the known pairs, and what holds of every choice.

use crate::{Tally, SEED};
use oracle::answers;
use oracle::best::every_list;
use oracle::case::Case;
use oracle::days::known_unit;
use oracle::dp::best_list;
use oracle::known_pairs::{known_pairs, KnownPair, COUNT, TIED_LISTS, TIED_PRICES, TIED_PROFIT};
use oracle::pair::{choice, outcome, Choice, Outcome, Why};
use oracle::pairs::{case_of_pairs, Pairs};
use oracle::random::Rng;
use oracle::units::small_unit;

/// Numbers of random cases, and of pairs for each.
const CASES: u64 = 6_000;
const PAIRS_OF_A_CASE: usize = 5;
const FOLDED: u64 = 250;

/// The known pairs: the answer, and the part that is handed back, which is the very memory of a list.
pub fn known(tally: &mut Tally) {
    tally.same("count", known_pairs().len() as u64, COUNT);
    for pair in known_pairs() {
        let KnownPair { name, case, first, second, choice } = &pair;
        let given = outcome(case, first, second);
        tally.same(name, given.in_numbers(), *choice);
        let part = given.part(first, second);
        let wanted = match choice.which {
            0 => (first.as_ptr(), 0),
            1 => (first.as_ptr(), first.len()),
            _ => (second.as_ptr(), second.len()),
        };
        tally.same(name, (part.as_ptr(), part.len()), wanted);
    }
}

/// The tie of the known pairs, by trying every list: no list earns more, and no others earn as much.
pub fn tie(tally: &mut Tally) {
    let case = known_unit(2, &TIED_PRICES);
    let passing = every_passing(&case);
    let most = passing.iter().map(|(profit, _)| *profit).max();
    let tied: Vec<&[u16]> =
        passing.iter().filter(|(profit, _)| Some(*profit) == most).map(|(_, list)| &list[..]).collect();
    tally.same("most", most, Some(TIED_PROFIT));
    tally.same("lists that earn most", tied, TIED_LISTS.iter().map(|list| &list[..]).collect());
}

/// Every list up to the capacity plus 1 that passes, lowest first, with its profit.
fn every_passing(case: &Case) -> Vec<(i64, Vec<u16>)> {
    let verdict = |list: Vec<u16>| (answers::verdict(case, &list), list);
    let passes =
        |(verdict, list): (answers::Verdict, Vec<u16>)| (verdict.rule == 0).then_some((verdict.profit, list));
    every(case).into_iter().map(verdict).filter_map(passes).collect()
}

/// Every list up to the capacity plus 1, lowest first.
fn every(case: &Case) -> Vec<Vec<u16>> {
    let mut lists = vec![Vec::new()];
    for _ in 0..case.t {
        let longer = |list: &Vec<u16>| {
            let list = list.clone();
            (0..=case.capacity + 1).map(move |output| [&list[..], &[output]].concat())
        };
        lists = lists.iter().flat_map(longer).collect();
    }
    lists
}

/// The better one of all lists of a small unit, taken two at a time, is the best list.
pub fn folded(tally: &mut Tally) -> String {
    let mut lists = 0;
    for index in 0..FOLDED {
        let case = small_unit(&mut Rng::for_index(SEED + 6, index));
        let all = every(&case);
        lists += all.len();
        let last = all[all.len() - 1].clone();
        let better = all.into_iter().fold(last, |one, other| keep(&case, one, other));
        let passes = answers::verdict(&case, &better).rule == 0;
        tally.same("folded", passes.then_some(better), every_list(&case).map(|plan| plan.list));
    }
    format!("; {lists} lists")
}

/// The better one of two lists; the first where neither passes.
fn keep(case: &Case, one: Vec<u16>, other: Vec<u16>) -> Vec<u16> {
    match choice(case, &one, &other).which {
        2 => other,
        _ => one,
    }
}

/// What holds of every choice, on random pairs.
pub fn random(tally: &mut Tally) -> String {
    let mut counts = [0; 6];
    for index in 0..CASES {
        let mut rng = Rng::for_index(SEED + 7, index);
        let case = case_of_pairs(&mut rng);
        let best = best_list(&case).map(|plan| plan.list);
        let pairs = Pairs::new(&mut rng, &case);
        for _ in 0..PAIRS_OF_A_CASE {
            let (first, second) = pairs.pair(&mut rng);
            counts[kind(&outcome(&case, &first, &second))] += 1;
            swapped(tally, &case, &first, &second);
            with_itself(tally, &case, &first);
            against_best(tally, &case, best.as_deref(), &first);
            three(tally, &case, [&first, &second, &pairs.one(&mut rng)]);
        }
    }
    format!("; refused, neither, one passes, profit, lower, identical: {counts:?}")
}

/// A place for each kind of outcome.
fn kind(outcome: &Outcome) -> usize {
    match outcome {
        Outcome::Refused(_) => 0,
        Outcome::Neither => 1,
        Outcome::Better { why: Why::OtherBreaks, .. } => 2,
        Outcome::Better { why: Why::HigherProfit, .. } => 3,
        Outcome::Better { why: Why::LowerAt(_), .. } => 4,
        Outcome::Better { why: Why::Identical, .. } => 5,
    }
}

/// The other way round the same list is chosen; of identical lists the first, either way.
fn swapped(tally: &mut Tally, case: &Case, first: &[u16], second: &[u16]) {
    let (one_way, other_way) = (choice(case, first, second), choice(case, second, first));
    let which = match one_way.which {
        0 => 0,
        1 if first == second => 1,
        which => 3 - which,
    };
    tally.same("swapped", other_way, Choice { which, ..one_way });
}

/// With itself a list is the first if it passes, and otherwise neither or refused as in the check.
fn with_itself(tally: &mut Tally, case: &Case, list: &[u16]) {
    let verdict = answers::verdict(case, list);
    let passes = (verdict.number, verdict.rule) == (0, 0);
    let wanted = Choice { number: verdict.number, which: passes.into(), profit: verdict.profit };
    tally.same("itself", choice(case, list, list), wanted);
}

/// The best list is never beaten; without one, no list passes.
fn against_best(tally: &mut Tally, case: &Case, best: Option<&[u16]>, list: &[u16]) {
    if list.len() != case.t {
        return;
    }
    match best {
        Some(best) => {
            let which = if list == best { 1 } else { 2 };
            tally.same("best first", choice(case, best, list).which, 1);
            tally.same("best second", choice(case, list, best).which, which);
        }
        None => tally.same("no best list", choice(case, list, list).which, 0),
    }
}

/// A list that beats the second of three, which beats the third, beats the third; and the better one of all three is
/// the same whichever two are compared first.
fn three(tally: &mut Tally, case: &Case, [a, b, c]: [&[u16]; 3]) {
    let beats = |one, other| choice(case, one, other).which == 1;
    if beats(a, b) && beats(b, c) {
        tally.same("transitive", beats(a, c), true);
    }
    if [a, b, c].iter().all(|list| list.len() == case.t) {
        let keep = |one: &[u16], other: &[u16]| keep(case, one.to_vec(), other.to_vec());
        let (left, right) = (keep(&keep(a, b), c), keep(a, &keep(b, c)));
        tally.same("of three", choice(case, &left, &right), choice(case, &left, &left));
    }
}
