//! The better of two lists: which one, what it earns, and that it comes back as it was lent.

use giqapsun::boundary::{giqapsun_better, Choice};
use giqapsun::{best, better, check, compare, read, Case, Comparison, Verdict, PRICE_LEAST, PRICE_MOST};

const CASE_7: &[u8] = include_bytes!("../../../cases/case7.case");
const SOURCE: &[u8] = include_bytes!("../../../cases/source.case");

/// The best list of case 7, and two others that pass.
const BEST: [u16; 3] = [2, 1, 0];
const LOW: [u16; 3] = [2, 2, 2];
const HIGH: [u16; 3] = [3, 3, 3];

/// Lists that break a rule and would lose less than the best one.
const BROKEN: [u16; 3] = [0, 0, 0];
const OTHER_BROKEN: [u16; 3] = [2, 0, 0];

/// Case 7 at this price in every hour.
fn priced(price: i32) -> Case {
    let mut case = read(CASE_7).unwrap();
    case.prices[..3].fill(price);
    case
}

/// What a list that passes earns.
fn profit(case: &Case, list: &[u16]) -> i64 {
    match check(case, list) {
        Ok(Verdict::Passes { profit }) => profit,
        other => panic!("{list:?}: {other:?}"),
    }
}

/// Pointer and length.
fn place(list: &[u16]) -> (*const u16, usize) {
    (list.as_ptr(), list.len())
}

/// The comparison gives the answer, and the slice that comes back is the one that it stands for.
fn given(case: &Case, first: &[u16], second: &[u16], answer: Comparison) {
    assert_eq!(compare(case, first, second), Ok(answer), "{first:?} {second:?}");
    let (which, profit, list) = match answer {
        Comparison::First { profit } => (1, profit, first),
        Comparison::Second { profit } => (2, profit, second),
        Comparison::Neither => (0, 0, &first[..0]),
    };
    assert_eq!(place(better(case, first, second)), place(list), "{first:?} {second:?}");
    // SAFETY: pointers and lengths of two slices.
    let choice =
        unsafe { giqapsun_better(*case, first.as_ptr(), first.len(), second.as_ptr(), second.len()) };
    assert_eq!(choice, Choice { number: 0, which, profit });
}

/// One list wins in either place.
fn wins(case: &Case, winner: &[u16], other: &[u16], profit: i64) {
    given(case, winner, other, Comparison::First { profit });
    given(case, other, winner, Comparison::Second { profit });
}

#[test]
fn a_list_that_passes_beats_one_that_does_not() {
    let case = priced(5);
    for passing in [BEST, LOW, HIGH] {
        for broken in [BROKEN, OTHER_BROKEN, [u16::MAX; 3]] {
            wins(&case, &passing, &broken, profit(&case, &passing));
        }
    }
}

#[test]
fn the_higher_profit_wins() {
    wins(&priced(5), &BEST, &LOW, -53);
    wins(&priced(5), &LOW, &HIGH, -71);
    wins(&priced(11), &HIGH, &LOW, 12);
    // 13 and 18 half-megawatt-hours, below 0 and in a spike
    wins(&priced(-5), &LOW, &HIGH, -201);
    wins(&priced(PRICE_LEAST), &LOW, &HIGH, -130_000_136);
    wins(&priced(PRICE_MOST), &HIGH, &LOW, 179_999_814);
}

#[test]
fn equal_profits_go_to_the_lower_list() {
    // at a price of F a list earns what its hours on-line cost
    let case = priced(10);
    for (lower, higher) in [(LOW, HIGH), ([2, 3, 3], [3, 2, 2]), ([3, 3, 2], [3, 3, 3])] {
        wins(&case, &lower, &higher, -6);
    }
}

#[test]
fn identical_lists_give_the_first() {
    let case = priced(5);
    for list in [BEST, LOW, HIGH] {
        let (first, second) = (list.to_vec(), list.to_vec());
        let answer = Comparison::First { profit: profit(&case, &list) };
        given(&case, &first, &second, answer);
        given(&case, &second, &first, answer);
        given(&case, &first, &first, answer);
    }
}

#[test]
fn neither_gives_the_empty_part_of_the_first() {
    for first in [BROKEN, OTHER_BROKEN] {
        for second in [BROKEN, OTHER_BROKEN] {
            given(&priced(5), &first, &second, Comparison::Neither);
        }
        given(&priced(5), &first, &first, Comparison::Neither);
    }
}

#[test]
fn parts_of_one_buffer() {
    let case = priced(5);
    // 3, 3, 3 at 1; 3, 3, 2 at 2; 2, 2, 2 at 4; 2, 1, 0 at 6
    let buffer = [9, 3, 3, 3, 2, 2, 2, 1, 0, 9];
    let part = |at: usize| &buffer[at..at + 3];
    wins(&case, part(6), part(1), -53);
    wins(&case, part(6), part(4), -53);
    wins(&case, part(4), part(1), -71);
    wins(&case, part(4), part(2), -71);
    wins(&case, part(2), part(1), -91);
    wins(&case, part(6), part(0), -53);
    given(&case, part(0), part(7), Comparison::Neither);
    assert_eq!(buffer, [9, 3, 3, 3, 2, 2, 2, 1, 0, 9]);
}

#[test]
fn what_comes_back_lives_as_long_as_the_lists() {
    let lists = [LOW, BEST];
    let offered = {
        let case = priced(5);
        better(&case, &lists[0], &lists[1])
    };
    assert_eq!(place(offered), place(&lists[1]));
}

#[test]
fn the_best_list_is_not_beaten() {
    let case = read(SOURCE).unwrap();
    let plan = best(&case).unwrap();
    wins(&case, &plan.outputs, &[120; 24], plan.profit);
    // over case 7's three hours, every list up to the capacity
    for price in [-1_000, 0, 5, 10, 11, 30, 80_000] {
        let case = priced(price);
        let plan = best(&case).unwrap();
        for number in 0..125 {
            let other = [number / 25, number / 5 % 5, number % 5];
            if other[..] != plan.outputs[..] {
                wins(&case, &plan.outputs, &other, plan.profit);
            }
        }
    }
}
