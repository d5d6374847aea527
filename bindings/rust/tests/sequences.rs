//! Days that open and close inside a start-up or a shut-down, and what a list leaves for the next day.

use giqapsun::{best, check, read, write, Case, Opening, Plan, Refusal, Verdict, ON, PRICE_LEAST};

const EVENING: &[u8] = include_bytes!("../../../cases/evening.case");
const MORNING: &[u8] = include_bytes!("../../../cases/morning.case");

/// A unit with start-ups and shut-downs of three hours, at 4 MW for 9 hours; three hours at a price of 5.
fn unit() -> Case {
    let mut case = Case {
        capacity: 4,
        minimum: 3,
        rampup: 1,
        rampdown: 1,
        minup: 1,
        mindown: 1,
        variable: 10,
        fixed: 1,
        startcost: 3,
        stopcost: 2,
        initial: 4,
        elapsed: 9,
        rises: 3,
        falls: 3,
        hours: 3,
        ..Case::default()
    };
    case.rise[..3].copy_from_slice(&[1, 2, 3]);
    case.fall[..3].copy_from_slice(&[3, 2, 1]);
    case.prices[..3].fill(5);
    case
}

/// An opening by its four numbers.
fn opening((initial, elapsed, upstage, downstage): (u16, u16, u8, u8)) -> Opening {
    Opening { initial, elapsed, upstage, downstage }
}

/// The unit with an opening and this price in each hour, as written and read again.
fn day(numbers: (u16, u16, u8, u8), prices: &[i32]) -> Case {
    let mut case = unit().opened(opening(numbers));
    case.prices = [0; giqapsun::HOURS];
    case.prices[..prices.len()].copy_from_slice(prices);
    case.hours = prices.len();
    assert_eq!(read(&write(&case).unwrap()), Ok(case));
    case
}

/// Every list of so many outputs from 0 to 4.
fn lists(hours: usize) -> impl Iterator<Item = Vec<u16>> {
    (0..5usize.pow(hours as u32))
        .map(move |number| (0..hours).map(|k| (number / 5usize.pow(k as u32) % 5) as u16).collect())
}

/// What a list that passes earns; none for one that breaks a rule.
fn profit(case: &Case, list: &[u16]) -> Option<i64> {
    match check(case, list).unwrap() {
        Verdict::Passes { profit } => Some(profit),
        Verdict::Breaks { .. } => None,
    }
}

/// One list passes, and earns this.
fn only(case: &Case, list: &[u16], earned: i64) {
    let passing: Vec<Vec<u16>> = lists(list.len()).filter(|other| profit(case, other).is_some()).collect();
    assert_eq!(passing, [list]);
    assert_eq!(best(case), Ok(Plan { outputs: list.to_vec(), profit: earned }));
}

#[test]
fn opening_in_a_start_up() {
    // B is not of this day
    only(&day((1, 1, 1, 0), &[10, 10]), &[2, 3], -4);
    let rising = day((2, 2, 2, 0), &[10, 10]);
    assert_eq!((profit(&rising, &[3, 3]), profit(&rising, &[3, 4])), (Some(-4), Some(-4)));
    assert_eq!(check(&rising, &[2, 3]), Ok(Verdict::Breaks { hour: 1, rule: 1 }));
    // the start-up of a unit with the minimum for its capacity, broken off
    let mut level = day((1, 1, 1, 0), &[10]);
    (level.capacity, level.minimum, level.rises, level.falls) = (2, 2, 2, 2);
    level.fall[..2].copy_from_slice(&[2, 1]);
    assert_eq!(check(&level, &[0]), Ok(Verdict::Breaks { hour: 1, rule: 8 }));
}

#[test]
fn opening_in_a_shut_down() {
    let mut falling = day((2, 4, 0, 2), &[10, 10]);
    falling.mindown = 8;
    only(&falling, &[1, 0], -2 - 4);
    // the stop stands after the day, and C with it
    only(&day((2, 4, 0, 2), &[10]), &[1], -2);
    // it stands before the minimum up time is over
    falling.minup = 6;
    assert_eq!(best(&falling), Err(Refusal::NoSchedule));
    assert_eq!(check(&falling, &[1, 0]), Ok(Verdict::Breaks { hour: 2, rule: 21 }));
}

#[test]
fn closing_in_a_shut_down() {
    let case = unit();
    assert_eq!(profit(&case, &[4, 3, 2]), Some(-5 * (8 + 7 + 5) - 6));
    assert_eq!(best(&case), Ok(Plan { outputs: vec![3, 2, 1], profit: -5 * (7 + 5 + 3) - 6 }));
    assert_eq!(check(&case, &[4, 4, 2]), Ok(Verdict::Breaks { hour: 2, rule: 4 }));
    // the same output at the end of a start-up
    assert_eq!(profit(&day((0, 9, 0, 0), &[10, 10]), &[1, 2]), Some(-2 * 2 - 2 * 3));
}

#[test]
fn hour_above_the_last() {
    for (list, hour) in [([4, 3, 2], 5), ([3, 2, 1], 4)] {
        let early = Case { elapsed: 3, minup: 8, ..unit() };
        assert_eq!(check(&early, &list), Ok(Verdict::Breaks { hour, rule: 21 }));
        let late = Case { elapsed: 9 - hour as u16, ..early };
        assert!(profit(&late, &list).is_some());
    }
}

#[test]
fn refusal_of_an_opening() {
    for numbers in [
        // a start-up stage that there is not; its hours; its output
        (3, 3, 3, 0),
        (4, 9, 255, 0),
        (1, 2, 1, 0),
        (2, 1, 2, 0),
        (2, 1, 1, 0),
        (0, 1, 1, 0),
        // a shut-down stage that there is not; its hours; its output
        (3, 9, 0, 1),
        (1, 9, 0, 4),
        (2, 3, 0, 2),
        (1, 4, 0, 3),
        (2, 10_001, 0, 2),
        (3, 9, 0, 2),
        (2, 9, 0, 3),
        // both, and none
        (2, 2, 2, 2),
        (1, 1, 1, 3),
        (1, 1, 0, 0),
        (2, 9, 0, 0),
        (3, 2, 0, 0),
    ] {
        let case = unit().opened(opening(numbers));
        assert_eq!(write(&case), Err(Refusal::Opening), "{numbers:?}");
        assert_eq!(best(&case), Err(Refusal::Opening), "{numbers:?}");
    }
    for numbers in [(1, 1, 1, 0), (2, 2, 2, 0), (2, 4, 0, 2), (1, 5, 0, 3), (2, 10_000, 0, 2), (3, 3, 0, 0)] {
        day(numbers, &[5]);
    }
}

#[test]
fn opening_after_a_list() {
    for (list, numbers) in [
        (&[][..], (4, 9, 0, 0)),
        (&[4], (4, 10, 0, 0)),
        (&[3, 2], (2, 11, 0, 2)),
        (&[3, 2, 1], (1, 12, 0, 3)),
        (&[3, 2, 1, 0, 0], (0, 2, 0, 0)),
        (&[3, 2, 1, 0, 1], (1, 1, 1, 0)),
        (&[3, 2, 1, 0, 1, 2], (2, 2, 2, 0)),
        (&[3, 2, 1, 0, 1, 2, 3], (3, 3, 0, 0)),
        (&[3, 2, 1, 0, 1, 2, 3, 2], (2, 4, 0, 2)),
    ] {
        assert_eq!(unit().opening_after(list), opening(numbers), "{list:?}");
    }
    for numbers in [(1, 1, 1, 0), (2, 2, 2, 0), (2, 4, 0, 2), (1, 5, 0, 3), (0, 1, 0, 0)] {
        assert_eq!(day(numbers, &[5]).opening_after(&[]), opening(numbers));
    }
    assert_eq!(day((1, 1, 1, 0), &[5]).opening_after(&[2]), opening((2, 2, 2, 0)));
    let long = Case { elapsed: 9_999, ..unit() };
    assert_eq!(long.opening_after(&[4; 168]), opening((4, 10_000, 0, 0)));
    // whatever a record holds
    let wild = Case { elapsed: u16::MAX, falls: usize::MAX, rises: 0, ..unit() };
    assert_eq!(wild.opening_after(&[4]).initial, 4);
}

/// A list passes exactly if its parts do as two days, the second opened as the first leaves it, and earns their sum.
#[test]
fn days_as_one() {
    let prices = [5, -7, 30, PRICE_LEAST];
    for numbers in [(4, 9, 0, 0), (0, 2, 0, 0), (2, 2, 2, 0), (1, 5, 0, 3)] {
        let mut case = day(numbers, &prices);
        case.orders[1] = if numbers.0 == 4 { ON } else { 0 };
        let mut passed = 0;
        for list in lists(4) {
            let whole = profit(&case, &list);
            passed += usize::from(whole.is_some());
            for cut in 1..4 {
                assert_eq!(as_two(&case, &list, cut), whole, "{list:?} cut after {cut}");
            }
        }
        assert!(passed > 1, "{numbers:?}");
    }
}

/// What a list earns as that of two days; none where either part breaks a rule.
fn as_two(case: &Case, list: &[u16], cut: usize) -> Option<i64> {
    let first = Case { hours: cut, ..*case };
    let before = profit(&first, &list[..cut])?;
    let mut second = case.opened(first.opening_after(&list[..cut]));
    second.hours -= cut;
    second.prices.rotate_left(cut);
    second.orders.rotate_left(cut);
    Some(before + profit(&second, &list[cut..])?)
}

#[test]
fn stored_days() {
    let (evening, morning) = (read(EVENING).unwrap(), read(MORNING).unwrap());
    assert_eq!(write(&evening).unwrap(), EVENING);
    assert_eq!(write(&morning).unwrap(), MORNING);
    let plan = best(&evening).unwrap();
    assert_eq!((&plan.outputs[21..], plan.profit), (&[162, 112, 70][..], 36_130_586));
    let left = evening.opening_after(&plan.outputs);
    assert_eq!(left, opening((70, 17, 0, 2)));
    assert_eq!(Case { prices: morning.prices, ..evening.opened(left) }, morning);
    assert_eq!(best(&morning).unwrap().outputs[..3], [30, 0, 0]);
}
