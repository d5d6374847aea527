//! The programmes find the same lists as the library on random days, half of them with prices below zero, and some that
//! open or close inside a sequence; none takes more row steps than the most. By random curves they find the same too.
//! The reader gives the same number and record as the library for every file.

use crate::blocks::Blocks;
use crate::dice::Dice;
use crate::library::{self, NOW};
use crate::queue::Queue;
use crate::unit::TIME;
use crate::{curves, days, files, memory, plain, reader, steps};
use giqapsun::{working_numbers, Case, COSTS, HOURS, SHORT_TIME, WORK, WORK_MOST};

/// A programme within the memory.
type Within = fn(&Case, &mut [i64], &mut [u16]) -> Option<i64>;

#[test]
fn random_days() {
    let mut dice = Dice::new();
    let mut work = vec![0i64; WORK_MOST];
    let (mut none, mut closed, mut long) = (0, 0, 0);
    let most = [SHORT_TIME.into(), TIME].map(|times| steps::most(HOURS, times));
    for round in 0..20_000 {
        let case = dice.day();
        let mut outputs = vec![0; case.hours];
        let room = working_numbers(&case);
        let work = &mut work[..room];
        let plan = NOW.best(&case, work, &mut outputs);
        assert!(plan.number == 0 || plan.number == 11, "{round}: refused {}", plan.number);
        let found = (plan.number == 0).then_some((plan.profit, outputs));
        none += usize::from(found.is_none());
        closed += usize::from(found.as_ref().is_some_and(|(_, list)| is_closed_in_stop(&case, list)));
        for (name, best) in [("memory", memory::best::<Queue> as Within), ("tuned", memory::best::<Blocks>)] {
            let mut list = vec![0; case.hours];
            let day = best(&case, work, &mut list).map(|profit| (profit, list));
            assert!(day == found, "{round}: {name} {day:?} and not {found:?}: {case:?}");
        }
        let taken = found.as_ref().map_or(0, |(_, list)| steps::count(&case, list));
        assert!(taken <= most[usize::from(room > WORK)], "{round}: {taken} row steps: {case:?}");
        long += usize::from(case.hours > 48 && room > WORK);
        let day = plain::best(&case);
        assert!(day == found, "{round}: plain {day:?} and not {found:?}: {case:?}");
    }
    assert!(none > 100, "{none} days without a list");
    assert!(closed > 100, "{closed} days that close inside a stop");
    assert!(long > 1000, "{long} days of more than 48 hours with the more working numbers");
}

#[test]
fn random_days_by_curve() {
    let mut dice = Dice::new();
    let (mut work, mut costs) = (vec![0i64; WORK_MOST], vec![0i64; COSTS]);
    let (mut none, mut other) = (0, 0);
    for round in 0..4_000 {
        let case = dice.day();
        let curve = dice.curve(&case);
        let mut outputs = vec![0; case.hours];
        let plan = library::best_by_curve(
            &case,
            curve,
            &mut costs,
            &mut work[..working_numbers(&case)],
            &mut outputs,
        );
        assert!(plan.number == 0 || plan.number == 11, "{round}: refused {}", plan.number);
        assert_eq!(costs, curves::table(curve), "{round}: {curve:?}");
        let found = (plan.number == 0).then_some((plan.profit, outputs));
        none += usize::from(found.is_none());
        for (name, day) in
            [("blocks", curves::by_blocks(&case, curve)), ("pairs", curves::by_pairs(&case, curve))]
        {
            assert!(day == found, "{round}: {name} {day:?} and not {found:?}: {curve:?} {case:?}");
        }
        let plain = plain::best(&case);
        other += usize::from(found.zip(plain).is_some_and(|(one, other)| one.1 != other.1));
    }
    assert!(none > 20, "{none} days without a list");
    assert!(other > 100, "{other} days with another list than by F and A");
}

/// Whether a list that keeps the rules ends on its way down below the minimum output.
fn is_closed_in_stop(case: &Case, list: &[u16]) -> bool {
    let before = list.iter().rev().nth(1).unwrap_or(&case.initial);
    list.last().is_some_and(|last| (1..case.minimum).contains(last) && last < before)
}

/// The two days that are timed for it open inside a start and close inside a stop.
#[test]
fn timed_sequences() {
    let mut work = vec![0i64; WORK_MOST];
    let mut counts = (0, 0);
    for (_, case) in days::all() {
        let mut outputs = vec![0; case.hours];
        assert_eq!(NOW.best(&case, &mut work, &mut outputs).number, 0);
        counts.0 += usize::from(case.upstage > 0);
        counts.1 += usize::from(is_closed_in_stop(&case, &outputs));
    }
    assert!(counts.0 == 1 && counts.1 >= 1, "{counts:?}");
}

/// The days that are timed for their row steps: two take the most, and one all but one of it.
#[test]
fn most_row_steps() {
    let taken = |day: &str| {
        let (_, case) = days::all().into_iter().find(|(name, _)| name.starts_with(day)).expect("the day");
        let (mut work, mut outputs) = (vec![0i64; WORK_MOST], vec![0; case.hours]);
        assert_eq!(NOW.best(&case, &mut work, &mut outputs).number, 0);
        steps::count(&case, &outputs)
    };
    assert_eq!(taken("(x)"), steps::most(HOURS, TIME));
    assert_eq!(taken("(w)"), steps::most(48, SHORT_TIME.into()));
    assert_eq!(taken("(y)") + 1, steps::most(HOURS, SHORT_TIME.into()));
}

/// The number that both readers give with the same record.
fn read(file: &[u8]) -> u32 {
    let reading = NOW.read(file);
    assert_eq!(reader::read(file), reading, "{file:?}");
    reading.number
}

#[test]
fn random_files() {
    let mut dice = Dice::new();
    let mut given = [0; 14];
    for _ in 0..100_000 {
        given[read(&dice.file()) as usize] += 1;
    }
    for (number, times) in given.into_iter().enumerate() {
        let of_a_list = (9..12).contains(&number);
        assert!(of_a_list == (times == 0), "{number} given {times} times");
    }
}

/// Each section of a day in every length up to 900 bytes; the hours of a week have 840.
#[test]
fn every_length() {
    for form in [files::old, files::two, files::three] {
        let sections = form(&days::source(24));
        for (i, length) in (0..sections.len()).flat_map(|i| (0..=900).map(move |length| (i, length))) {
            let mut sections = sections.clone();
            sections[i].resize(length, 0);
            read(&files::joined(&sections));
        }
    }
}

/// The files that are timed, with the numbers that they are named for.
#[test]
fn timed_files() {
    let numbers: Vec<u32> = files::all().iter().map(|(_, file)| read(file)).collect();
    assert_eq!(numbers, [0, 0, 0, 0, 0, 0, 0, 0, 0, 2, 2, 1]);
}
