//! Cost curves: tables, the check and the search by them, refusal 16 and what each call leaves in lent memory.

use giqapsun::boundary::{self, giqapsun_best_by_curve, giqapsun_check_by_curve, giqapsun_table};
use giqapsun::{
    best, best_by_curve, check, check_by_curve, read, table, working_numbers, Case, Curve, Plan, Refusal,
    Verdict, COEFFICIENT_MOST, COSTS, HOURS, ON, WORK, WORK_MOST,
};

const CASE_7: &[u8] = include_bytes!("../../../cases/case7.case");
const SOURCE: &[u8] = include_bytes!("../../../cases/source.case");
const BOILER: &[u8] = include_bytes!("../../../cases/boiler.case");

/// The curves of the stored files source_curve.toml and maker.toml.
const SOURCE_CURVE: Curve = Curve::Straight { a: 200_000.0, b: 38_000.0 };
const MAKER: Curve = Curve::Curved { a: 412_500.5, b: 29_250.75, c: 14.3 };

/// What the source's day earns by the maker's curve, in half-mills.
const MAKERS_PROFIT: i64 = 44_732_821;

/// A number that lent memory holds before a call.
const LENT: i64 = 7;

/// Case 7's unit from an output, with these prices.
fn unit(initial: u16, prices: &[i32]) -> Case {
    let mut case = Case { initial, hours: prices.len(), ..read(CASE_7).unwrap() };
    case.prices[..prices.len()].copy_from_slice(prices);
    case
}

/// A day without a schedule: hour 1 is ordered on-line before the minimum down time is over.
fn without_schedule() -> Case {
    let mut case = Case { elapsed: 1, mindown: 2, ..unit(0, &[10]) };
    case.orders[0] = ON;
    case
}

#[test]
fn whole_coefficients_give_the_formula() {
    let most = f64::from(COEFFICIENT_MOST);
    for [a, b, c] in [[0.0, 0.0, 0.0], [3.0, 2.0, 1.0], [most, most, most], [999_999.0, 1.0, 31.0]] {
        let costs = table(Curve::Curved { a, b, c }).unwrap();
        let formula: Vec<i64> = (0..=800).map(|n| (c as i64 * n + b as i64) * n + a as i64).collect();
        assert_eq!(costs, formula);
        let line: Vec<i64> = (0..=800).map(|n| b as i64 * n + a as i64).collect();
        assert_eq!(table(Curve::Straight { a, b }).unwrap(), line);
        assert_eq!(table(Curve::Flat { a }).unwrap(), [a as i64; COSTS]);
    }
    assert_eq!(table(Curve::Curved { a: most, b: most, c: most }).unwrap()[800], 640_801_000_000);
}

#[test]
fn ties_go_to_the_even_number() {
    for (a, cost) in
        [(0.5, 0), (1.5, 2), (2.5, 2), (3.5, 4), (0.49999999999999994, 0), (0.5000000000000001, 1)]
    {
        assert_eq!(table(Curve::Flat { a }).unwrap(), [cost; COSTS]);
    }
    // five tenths are rounded onto a tie; with 2^-54 besides one rounding instead of two would give 1
    let tenths = table(Curve::Straight { a: 0.0, b: 0.1 }).unwrap();
    assert_eq!((tenths[5], tenths[6], tenths[15], tenths[25]), (0, 1, 2, 2));
    let twice_rounded = Curve::Straight { a: 2f64.powi(-54), b: 0.1 };
    assert_eq!(table(twice_rounded).unwrap()[5], 0);
}

#[test]
fn tables_never_fall() {
    for curve in [MAKER, Curve::Curved { a: 0.1, b: 1e-300, c: 0.3 }, Curve::Straight { a: 5e-324, b: 0.7 }] {
        let costs = table(curve).unwrap();
        assert!(costs.windows(2).all(|pair| pair[0] <= pair[1]));
    }
}

/// Each coefficient of each kind, with a number in its place.
fn with(number: f64) -> Vec<Curve> {
    vec![
        Curve::Flat { a: number },
        Curve::Straight { a: number, b: 1.0 },
        Curve::Straight { a: 1.0, b: number },
        Curve::Curved { a: number, b: 1.0, c: 1.0 },
        Curve::Curved { a: 1.0, b: number, c: 1.0 },
        Curve::Curved { a: 1.0, b: 1.0, c: number },
    ]
}

#[test]
fn refused_coefficients() {
    let case = unit(3, &[5, 5, 5]);
    let above = f64::from_bits(1_000_000f64.to_bits() + 1);
    for number in [f64::NAN, -f64::NAN, f64::INFINITY, f64::NEG_INFINITY, -1.0, -5e-324, above, f64::MAX] {
        for curve in with(number) {
            assert_eq!(table(curve), Err(Refusal::Curve));
            assert_eq!(check_by_curve(&case, curve, &[2, 1, 0]), Err(Refusal::Curve));
            assert_eq!(best_by_curve(&case, curve), Err(Refusal::Curve));
            // before the case and the list
            assert_eq!(check_by_curve(&Case::default(), curve, &[]), Err(Refusal::Curve));
            assert_eq!(best_by_curve(&Case::default(), curve), Err(Refusal::Curve));
        }
    }
    for number in [0.0, -0.0, 1_000_000.0, 5e-324] {
        assert!(with(number).into_iter().all(|curve| table(curve).is_ok()));
    }
    assert_eq!(Refusal::Curve.number(), 16);
}

#[test]
fn refused_kinds_and_unused_coefficients() {
    let record = |a, b, c| boundary::Curve { a, b, c };
    for (kind, curve, number) in [
        (0, record(1.0, 0.0, -0.0), 0),
        (0, record(1.0, 5e-324, 0.0), 16),
        (0, record(1.0, 0.0, f64::NAN), 16),
        (0, record(1.0, -1.0, 0.0), 16),
        (1, record(1.0, 1.0, -0.0), 0),
        (1, record(1.0, 1.0, 5e-324), 16),
        (2, record(1.0, 1.0, 1.0), 0),
        (3, record(0.0, 0.0, 0.0), 16),
        (256, record(1.0, 0.0, 0.0), 16),
        (258, record(1.0, 1.0, 1.0), 16),
        (u16::MAX, record(0.0, 0.0, 0.0), 16),
    ] {
        for lent in [COSTS, COSTS - 1] {
            let mut costs = vec![LENT; lent];
            // SAFETY: pointer and length are those of one slice.
            let given = unsafe { giqapsun_table(kind, curve, costs.as_mut_ptr(), costs.len()) };
            assert_eq!(given, if number == 0 && lent < COSTS { 10 } else { number });
            assert!(given == 0 || costs == vec![LENT; lent]);
        }
    }
}

#[test]
fn the_curve_of_f_and_a() {
    let source = read(SOURCE).unwrap();
    assert_eq!(best_by_curve(&source, SOURCE_CURVE), best(&source));
    assert_eq!(best(&source).unwrap().profit, 33_546_962);
    let plain = Curve::Straight { a: 2.0, b: 10.0 };
    for case in [unit(3, &[5, 5, 5]), unit(0, &[18]), unit(0, &[19]), unit(2, &[5, 5])] {
        assert_eq!(best_by_curve(&case, plain), best(&case));
        let other = Case { variable: 1_000_000, fixed: 100_000_000, ..case };
        assert_eq!(best_by_curve(&other, plain), best(&case));
        assert_eq!(best_by_curve(&case, Curve::Curved { a: 2.0, b: 10.0, c: -0.0 }), best(&case));
        let list = best(&case).unwrap().outputs;
        assert_eq!(check_by_curve(&case, plain, &list), check(&case, &list));
    }
    // F and A are still tested
    let refused = Case { variable: 1_000_001, ..unit(0, &[18]) };
    assert_eq!(best_by_curve(&refused, plain), Err(Refusal::Costs));
    assert_eq!(check_by_curve(&refused, plain, &[0]), Err(Refusal::Costs));
}

#[test]
fn off_line_hours() {
    let flat = Curve::Flat { a: 7.0 };
    // at rest an hour costs nothing
    assert_eq!(best_by_curve(&unit(0, &[0]), flat), Ok(Plan { outputs: vec![0], profit: 0 }));
    // the hour of a stop has the entry for 0 taken off, and keeps what its energy costs
    let stops = unit(2, &[0, 0]);
    assert_eq!(best_by_curve(&stops, flat), Ok(Plan { outputs: vec![1, 0], profit: -11 }));
    for (curve, profit) in [
        (flat, -11),
        (Curve::Straight { a: 7.0, b: 3.0 }, -23),
        (Curve::Curved { a: 7.0, b: 3.0, c: 2.0 }, -43),
    ] {
        assert_eq!(check_by_curve(&stops, curve, &[1, 0]), Ok(Verdict::Passes { profit }));
    }
}

#[test]
fn the_makers_day() {
    let source = read(SOURCE).unwrap();
    let plan = best_by_curve(&source, MAKER).unwrap();
    assert_eq!(check_by_curve(&source, MAKER, &plan.outputs), Ok(Verdict::Passes { profit: plan.profit }));
    assert_eq!(plan.profit, MAKERS_PROFIT);
    let plain = best(&source).unwrap().outputs;
    assert_ne!(plan.outputs, plain);
    let Ok(Verdict::Passes { profit }) = check_by_curve(&source, MAKER, &plain) else {
        panic!("the source's list passes");
    };
    assert!(profit < plan.profit);
    let boiler = read(BOILER).unwrap();
    assert_eq!(working_numbers(&boiler), WORK_MOST);
    let week = best_by_curve(&boiler, MAKER).unwrap();
    assert_eq!(check_by_curve(&boiler, MAKER, &week.outputs), Ok(Verdict::Passes { profit: week.profit }));
}

#[test]
fn lists_past_the_table() {
    let case = unit(3, &[20]);
    let plain = Curve::Straight { a: 2.0, b: 10.0 };
    for output in [5, 798, 799, 65_535] {
        assert_eq!(check_by_curve(&case, plain, &[output]), Ok(Verdict::Breaks { hour: 1, rule: 3 }));
    }
    assert_eq!(check_by_curve(&case, plain, &[]), Err(Refusal::ListLength));
}

/// Makes the search by a curve in lent memory; whether it left it as it must.
fn lend(case: Case, curve: Curve, (costs, numbers, outputs): (usize, usize, usize), number: u32) {
    let (mut lent, mut work, mut list) = (vec![LENT; costs], vec![LENT; numbers], vec![9; outputs]);
    // SAFETY: pointers and lengths are those of three slices.
    let plan = unsafe {
        giqapsun_best_by_curve(
            case,
            curve.kind(),
            curve.record(),
            lent.as_mut_ptr(),
            lent.len(),
            work.as_mut_ptr(),
            work.len(),
            list.as_mut_ptr(),
            list.len(),
        )
    };
    assert_eq!(plan.number, number);
    let is_searched = number == 0 || number == 11;
    let filled = if is_searched { table(curve).unwrap() } else { Vec::new() };
    assert_eq!(lent[..filled.len()], filled);
    assert!(lent[filled.len()..].iter().all(|&cost| cost == LENT));
    let zeroed = if is_searched { working_numbers(&case) } else { 0 };
    assert!(
        work[..zeroed].iter().all(|&number| number == 0)
            && work[zeroed..].iter().all(|&number| number == LENT)
    );
    let found = if number == 0 { case.hours } else { 0 };
    assert!(list[found..].iter().all(|&output| output == 9));
    assert!(found == 0 || list[..found] == best_by_curve(&case, curve).unwrap().outputs);
}

#[test]
fn lent_memory_of_a_search() {
    let (case, plain) = (unit(3, &[5, 5, 5]), Curve::Straight { a: 2.0, b: 10.0 });
    lend(case, plain, (COSTS, WORK, 3), 0);
    lend(case, plain, (COSTS + 5, WORK + 5, HOURS), 0);
    for short in [(COSTS - 1, WORK, 3), (COSTS, WORK - 1, 3), (COSTS, WORK, 2), (0, 0, 0)] {
        lend(case, plain, short, 10);
        lend(case, Curve::Flat { a: -1.0 }, short, 16);
        lend(Case { rises: 0, ..case }, plain, short, 2);
        // 10 also where there is no schedule
        let none = without_schedule();
        lend(none, plain, (short.0, short.1, short.2.min(none.hours - 1)), 10);
    }
    lend(without_schedule(), plain, (COSTS, WORK, 1), 11);
    lend(without_schedule(), plain, (COSTS + 5, WORK + 5, 3), 11);
    lend(Case { minup: 9, ..case }, plain, (COSTS, WORK, 3), 10);
    lend(Case { minup: 9, ..case }, plain, (COSTS, WORK_MOST, 3), 0);
}

#[test]
fn lent_memory_of_a_check() {
    let (case, plain) = (unit(3, &[5, 5, 5]), Curve::Straight { a: 2.0, b: 10.0 });
    for (list, costs, number, rule) in [
        (vec![2, 1, 0], COSTS, 0, 0),
        (vec![2, 1, 0], COSTS + 5, 0, 0),
        (vec![2, 2, 0], COSTS, 0, 4),
        (vec![2, 1, 0], COSTS - 1, 10, 0),
        (vec![2, 2, 0], 0, 10, 0),
        (vec![2, 1], 0, 9, 0),
        (vec![], COSTS, 9, 0),
    ] {
        let mut lent = vec![LENT; costs];
        // SAFETY: pointers and lengths are those of two slices.
        let verdict = unsafe {
            giqapsun_check_by_curve(
                case,
                plain.kind(),
                plain.record(),
                list.as_ptr(),
                list.len(),
                lent.as_mut_ptr(),
                lent.len(),
            )
        };
        assert_eq!((verdict.number, verdict.rule), (number, rule));
        let filled = if number == 0 { table(plain).unwrap() } else { Vec::new() };
        assert_eq!(lent[..filled.len()], filled);
        assert!(lent[filled.len()..].iter().all(|&cost| cost == LENT));
    }
}
