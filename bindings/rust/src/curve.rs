//! The boiler maker's cost curve: its table, the check and the search by it.

use crate::boundary::{self, COSTS, CURVED, FLAT, STRAIGHT};
use crate::{accepted, planned, verdict_of, Case, Plan, Refusal, Verdict};

/// A boiler maker's cost curve: what an hour of n half-megawatt-hours costs, in half-mills. The coefficients are from 0
/// to [`COEFFICIENT_MOST`](crate::COEFFICIENT_MOST); -0.0 counts as 0. Each operation is rounded once, in the order
/// written, and the last is taken to the nearest whole number, a tie to the even one.
#[derive(Clone, Copy, Debug, PartialEq)]
pub enum Curve {
    /// a, whatever the energy is.
    Flat {
        /// Half-mills.
        a: f64,
    },
    /// b · n + a.
    Straight {
        /// Half-mills.
        a: f64,
        /// Half-mills per half-megawatt-hour.
        b: f64,
    },
    /// (c · n + b) · n + a.
    Curved {
        /// Half-mills.
        a: f64,
        /// Half-mills per half-megawatt-hour.
        b: f64,
        /// Half-mills per half-megawatt-hour squared.
        c: f64,
    },
}

impl Curve {
    /// The number of the kind at the C boundary.
    pub fn kind(self) -> u16 {
        match self {
            Curve::Flat { .. } => FLAT,
            Curve::Straight { .. } => STRAIGHT,
            Curve::Curved { .. } => CURVED,
        }
    }

    /// The three coefficients as they travel to the library, unused ones 0.
    pub fn record(self) -> boundary::Curve {
        match self {
            Curve::Flat { a } => boundary::Curve { a, b: 0.0, c: 0.0 },
            Curve::Straight { a, b } => boundary::Curve { a, b, c: 0.0 },
            Curve::Curved { a, b, c } => boundary::Curve { a, b, c },
        }
    }
}

/// The table of a curve: what an hour costs in half-mills, that of n half-megawatt-hours at n, for n from 0 to 800.
///
/// ```
/// use giqapsun::{table, Curve, Refusal};
///
/// let costs = table(Curve::Curved { a: 0.5, b: 38.25, c: 0.125 })?;
/// assert_eq!(costs.len(), 801);
/// // 0.5 and 77.5 are ties, which go to the even number; 38.875 is nearest to 39.
/// assert_eq!(costs[..3], [0, 39, 78]);
/// assert_eq!(table(Curve::Flat { a: f64::NAN }), Err(Refusal::Curve));
/// # Ok::<(), Refusal>(())
/// ```
///
/// # Errors
///
/// Refusal 16 where a coefficient is not a number, negative or above 1,000,000.
pub fn table(curve: Curve) -> Result<Vec<i64>, Refusal> {
    let mut table = vec![0; COSTS];
    // SAFETY: pointer and length are those of one slice, lent for the call alone.
    let number =
        unsafe { boundary::giqapsun_table(curve.kind(), curve.record(), table.as_mut_ptr(), table.len()) };
    accepted(number, table)
}

/// Checks a list of outputs by a curve: the verdict of [`check`](crate::check), with the profit by the table of the
/// curve in place of F and A, which are still tested. In an off-line hour, that of a stop included, the entry for 0 is
/// taken off.
///
/// # Errors
///
/// Refusal 16 of the curve; then 2 to 8 and 13 of the case, and 9 where the list is not of T outputs.
pub fn check_by_curve(case: &Case, curve: Curve, list: &[u16]) -> Result<Verdict, Refusal> {
    let mut table = vec![0; COSTS];
    // SAFETY: pointers and lengths are those of two slices, of which the list is only read and the table lent for the
    // call alone.
    let verdict = unsafe {
        boundary::giqapsun_check_by_curve(
            *case,
            curve.kind(),
            curve.record(),
            list.as_ptr(),
            list.len(),
            table.as_mut_ptr(),
            table.len(),
        )
    };
    accepted(verdict.number, verdict_of(&verdict))
}

/// Finds the list that keeps every rule and earns most by a curve; among equal earners the one that is lower at the
/// first hour where two differ.
///
/// ```
/// use giqapsun::{best, best_by_curve, check_by_curve, read, Curve, Plan, Verdict};
///
/// let mut case = read(include_bytes!("../../../cases/case7.case"))?;
/// // F and A of the case as a curve: b is F and a is 2 A.
/// let plain = Curve::Straight { a: 2.0, b: 10.0 };
/// assert_eq!(best_by_curve(&case, plain), best(&case));
///
/// // A curve that bends: at price 20 two megawatts earn more than four.
/// case.hours = 1;
/// case.prices[0] = 20;
/// let bent = Curve::Curved { a: 0.0, b: 0.0, c: 2.0 };
/// assert_eq!(best(&case)?.outputs, [4]);
/// assert_eq!(best_by_curve(&case, bent), Ok(Plan { outputs: vec![2], profit: 50 }));
/// assert_eq!(check_by_curve(&case, bent, &[4]), Ok(Verdict::Passes { profit: 42 }));
/// # Ok::<(), giqapsun::Refusal>(())
/// ```
///
/// # Errors
///
/// Refusal 16 of the curve; then 2 to 8 and 13 of the case, and 11 where no list keeps every rule.
pub fn best_by_curve(case: &Case, curve: Curve) -> Result<Plan, Refusal> {
    let mut table = vec![0; COSTS];
    planned(case, |work, outputs| {
        // SAFETY: pointers and lengths are those of three slices, lent for the call alone.
        unsafe {
            boundary::giqapsun_best_by_curve(
                *case,
                curve.kind(),
                curve.record(),
                table.as_mut_ptr(),
                table.len(),
                work.as_mut_ptr(),
                work.len(),
                outputs.as_mut_ptr(),
                outputs.len(),
            )
        }
    })
}
