//! The twelve known days, the source's day, and prices below 0 and far above.

use std::fmt::Debug;
use std::str::FromStr;

use giqapsun::{
    best, check, read, write, Case, Plan, Refusal, Verdict, FREE, OFF, ON, PRICE_LEAST, PRICE_MOST,
};

const KNOWN_DAYS: &str = include_str!("../../../cases/known_days.txt");
const SOURCE: &[u8] = include_bytes!("../../../cases/source.case");
const CASE_7: &[u8] = include_bytes!("../../../cases/case7.case");
const BELOW_ZERO: &[u8] = include_bytes!("../../../cases/below_zero.case");

/// The same in form 2.
const SECOND_SOURCE: &[u8] = include_bytes!("../../../cases/old/form2/source.case");
const SECOND_CASE_7: &[u8] = include_bytes!("../../../cases/old/form2/case7.case");
const SECOND_BELOW_ZERO: &[u8] = include_bytes!("../../../cases/old/form2/below_zero.case");

/// Two of them in the old form.
const OLD_SOURCE: &[u8] = include_bytes!("../../../cases/old/source.case");
const OLD_CASE_7: &[u8] = include_bytes!("../../../cases/old/case7.case");

/// The list that the source prints in Table III.
const SOURCE_LIST: [u16; 24] = [
    120, 112, 70, 30, 0, 0, 0, 37, 75, 112, 172, 232, 292, 294, 294, 294, 294, 294, 294, 294, 294, 244, 194,
    144,
];

/// The unit of the known days.
fn known_unit() -> Case {
    let mut case = Case {
        capacity: 4,
        minimum: 2,
        rampup: 1,
        rampdown: 1,
        minup: 1,
        variable: 10,
        fixed: 1,
        startcost: 3,
        stopcost: 2,
        rises: 2,
        falls: 2,
        ..Case::default()
    };
    case.rise[..2].copy_from_slice(&[1, 2]);
    case.fall[..2].copy_from_slice(&[2, 1]);
    case
}

/// Numbers with commas between.
fn numbers<N: FromStr>(text: &str) -> Vec<N>
where
    N::Err: Debug,
{
    text.split(',').map(|word| word.parse().unwrap()).collect()
}

/// The order that a word names.
fn order(word: &str) -> u8 {
    match word {
        "free" => FREE,
        "on" => ON,
        "off" => OFF,
        _ => panic!("{word} is no order"),
    }
}

/// Compares a row of the table; gives the case.
fn row(line: &str) -> Case {
    let cells: Vec<&str> = line.split('|').map(str::trim).collect();
    let mut case = known_unit();
    case.initial = cells[1].parse().unwrap();
    case.elapsed = cells[2].parse().unwrap();
    case.mindown = cells[3].parse().unwrap();
    let prices = numbers(cells[4]);
    case.hours = prices.len();
    case.prices[..prices.len()].copy_from_slice(&prices);
    for (place, word) in cells[5].split(',').enumerate() {
        case.orders[place] = order(word);
    }
    let asked: Vec<&str> = cells[6].split(' ').collect();
    let answer: Vec<&str> = cells[7].split(' ').collect();
    match (&asked[..], &answer[..]) {
        (["best"], ["list", list, "profit", profit]) => {
            let plan = Plan { outputs: numbers(list), profit: profit.parse().unwrap() };
            assert_eq!(check(&case, &plan.outputs), Ok(Verdict::Passes { profit: plan.profit }), "{line}");
            assert_eq!(best(&case), Ok(plan), "{line}");
        }
        (["best"], ["refused", "11"]) => assert_eq!(best(&case), Err(Refusal::NoSchedule), "{line}"),
        (["check", list], ["breaks", rule, "at", hour]) => {
            let breaks = Verdict::Breaks { hour: hour.parse().unwrap(), rule: rule.parse().unwrap() };
            assert_eq!(check(&case, &numbers(list)), Ok(breaks), "{line}");
        }
        _ => panic!("{line}: not understood"),
    }
    case
}

#[test]
fn known_days() {
    let rows: Vec<&str> = KNOWN_DAYS.lines().filter(|line| !line.starts_with('#')).collect();
    assert_eq!(rows.len(), 12);
    for line in &rows {
        let case = row(line);
        assert_eq!(read(&write(&case).unwrap()), Ok(case), "{line}");
    }
    assert_eq!(write(&row(rows[6])).unwrap(), CASE_7);
}

#[test]
fn source_day() {
    let case = read(SOURCE).unwrap();
    assert_eq!(case.hours, 24);
    assert_eq!(check(&case, &SOURCE_LIST), Ok(Verdict::Passes { profit: 33_546_962 }));
    let plan = best(&case).unwrap();
    assert_eq!(plan.profit, 33_546_962);
    assert_eq!(check(&case, &plan.outputs), Ok(Verdict::Passes { profit: plan.profit }));
    assert_eq!(write(&case).unwrap(), SOURCE);
}

/// A file of an older form is the same case, with stages 0, and comes back in form 3.
#[test]
fn older_forms() {
    for (old, file) in [
        (OLD_CASE_7, CASE_7),
        (OLD_SOURCE, SOURCE),
        (SECOND_CASE_7, CASE_7),
        (SECOND_SOURCE, SOURCE),
        (SECOND_BELOW_ZERO, BELOW_ZERO),
    ] {
        let case = read(old).unwrap();
        assert_eq!((case.upstage, case.downstage), (0, 0));
        assert_eq!(Ok(case), read(file));
        assert_eq!(write(&case).unwrap(), file);
    }
}

/// Case 7's unit at these prices, as written and read again.
fn priced(prices: &[i32]) -> Case {
    let mut case = known_unit();
    (case.mindown, case.initial, case.elapsed, case.hours) = (1, 3, 2, prices.len());
    case.prices[..prices.len()].copy_from_slice(prices);
    assert_eq!(read(&write(&case).unwrap()), Ok(case));
    case
}

/// Every list that passes earns what its energies do at the prices, and the best list is among those that earn most.
#[test]
fn prices_below_0_and_far_above() {
    for prices in [
        [-1, -1, -1],
        [5, -20, 80_000],
        [PRICE_LEAST, PRICE_LEAST, PRICE_LEAST],
        [PRICE_MOST, PRICE_MOST, PRICE_MOST],
        [PRICE_LEAST, PRICE_MOST, PRICE_LEAST],
        [PRICE_MOST, PRICE_LEAST, PRICE_MOST],
    ] {
        let case = priced(&prices);
        let mut most = i64::MIN;
        for number in 0..125 {
            let list = [number / 25, number / 5 % 5, number % 5];
            if let Verdict::Passes { profit } = check(&case, &list).unwrap() {
                assert_eq!(profit, earned(&case, &list), "{prices:?} {list:?}");
                most = most.max(profit);
            }
        }
        let plan = best(&case).unwrap();
        assert_eq!((plan.profit, earned(&case, &plan.outputs)), (most, most), "{prices:?}");
    }
}

/// What a list earns in half-mills.
fn earned(case: &Case, list: &[u16]) -> i64 {
    let mut before = case.initial;
    let mut profit = 0;
    for (&price, &output) in case.prices.iter().zip(list) {
        profit += i64::from(price - case.variable) * i64::from(before + output);
        profit -= 2 * i64::from(case.fixed) * i64::from(output > 0);
        profit -= 2 * i64::from(case.startcost) * i64::from(before == 0 && output > 0);
        profit -= 2 * i64::from(case.stopcost) * i64::from(before > 0 && output == 0);
        before = output;
    }
    profit
}

#[test]
fn stored_day_below_0() {
    let case = read(BELOW_ZERO).unwrap();
    assert_eq!(write(&case).unwrap(), BELOW_ZERO);
    let plan = best(&case).unwrap();
    assert_eq!(plan.profit, earned(&case, &plan.outputs));
    assert_eq!(check(&case, &plan.outputs), Ok(Verdict::Passes { profit: plan.profit }));
    // an hour that is ordered on-line below 0, and hours off-line though nothing orders it
    let hours = || case.prices.iter().zip(&case.orders).zip(&plan.outputs);
    assert!(hours().any(|((&price, &order), &output)| price < 0 && order == ON && output > 0));
    assert!(hours().any(|((&price, &order), &output)| price < 0 && order == FREE && output == 0));
    assert!(case.prices.iter().any(|&price| price > 65_535));
}

#[test]
fn entries_past_a_count_are_disregarded() {
    let case = read(CASE_7).unwrap();
    let mut other = case;
    other.rise[2..].fill(9);
    other.fall[2..].fill(9);
    other.prices[3..].fill(PRICE_LEAST - 1);
    other.orders[3..].fill(9);
    assert_ne!(other, case);
    assert_eq!(write(&other).unwrap(), CASE_7);
    assert_eq!(best(&other), best(&case));
    assert_eq!(check(&other, &[2, 1, 0]), Ok(Verdict::Passes { profit: -53 }));
}
