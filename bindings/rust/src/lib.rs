//! The day of one thermal power unit: case files are read and written, a list of hourly outputs is checked
//! against the rules of the day, the list that earns most is found, by the case's own hour orders or by those
//! of a calendar, and the better of two lists is told; a list is checked and the best one found by a boiler
//! maker's cost [`Curve`] too. A day is the hours of one case, up to the 168 of a week. The library behind it is
//! proved; this crate lends it memory and turns its answers into Rust's. What a list leaves for the next day,
//! [`Case::opening_after`] says.
//!
//! Outputs are whole megawatts, prices and costs mills (thousandths of a dollar), profits half-mills (2,000
//! to the dollar, exact). A price may be below 0. Hours are counted from 1; hour 0 is the one before the day. A
//! day may open inside a start-up or a shut-down, and close inside one; C belongs to the day that holds the
//! stop.
//!
//! ```
//! use giqapsun::{best, better, check, read, write, Case, Verdict};
//!
//! // A small unit on-line at 3 MW, and three hours at a price below its cost.
//! let mut case = Case {
//!     capacity: 4,
//!     minimum: 2,
//!     rampup: 1,
//!     rampdown: 1,
//!     minup: 1,
//!     mindown: 1,
//!     variable: 10,
//!     fixed: 1,
//!     startcost: 3,
//!     stopcost: 2,
//!     initial: 3,
//!     elapsed: 2,
//!     rises: 2,
//!     falls: 2,
//!     hours: 3,
//!     ..Case::default()
//! };
//! case.rise[..2].copy_from_slice(&[1, 2]);
//! case.fall[..2].copy_from_slice(&[2, 1]);
//! case.prices[..3].copy_from_slice(&[5, 5, 5]);
//!
//! let plan = best(&case)?;
//! assert_eq!(plan.outputs, [2, 1, 0]);
//! assert_eq!(plan.profit, -53);
//! assert_eq!(check(&case, &plan.outputs)?, Verdict::Passes { profit: -53 });
//! assert_eq!(check(&case, &[2, 2, 0])?, Verdict::Breaks { hour: 2, rule: 4 });
//! assert_eq!(read(&write(&case)?)?, case);
//!
//! // An hour below 0, and a spike that is worth going through it.
//! let mut spike = case;
//! spike.prices[..3].copy_from_slice(&[5, -20, 80_000]);
//! assert_eq!(best(&spike)?.outputs, [3, 4, 4]);
//! assert_eq!(best(&spike)?.profit, 639_674);
//!
//! // Lists from two houses: the better one comes back, the very slice that was lent.
//! let (first, second) = ([2, 2, 2], [2, 1, 0]);
//! let offered = better(&case, &first, &second);
//! assert_eq!(offered, [2, 1, 0]);
//! assert!(std::ptr::eq(offered, &second[..]));
//! # Ok::<(), giqapsun::Refusal>(())
//! ```

#![deny(missing_docs)]

pub mod boundary;
mod curve;
mod opening;
mod refusal;
mod rule;

pub use boundary::{Case, DAY_LEAST, DAY_MOST, FILE_MOST, FREE, HOURS, OFF, ON, PRICE_LEAST, PRICE_MOST};
pub use boundary::{COEFFICIENT_MOST, COSTS, SHORT_TIME, STAGES, WORK, WORK_MOST, YEAR_HOURS};
pub use curve::{best_by_curve, check_by_curve, table, Curve};
pub use opening::Opening;
pub use refusal::Refusal;
pub use rule::{rule_text, RULES};

/// Version of the product.
pub const VERSION: &str = env!("CARGO_PKG_VERSION");

/// What the check says of a list of T outputs.
#[derive(Clone, Copy, Debug, PartialEq, Eq)]
pub enum Verdict {
    /// The list keeps every rule.
    Passes {
        /// What it earns, in half-mills.
        profit: i64,
    },
    /// The list breaks a rule.
    Breaks {
        /// The earliest hour at which a rule is broken; hour 0 is the one before the day. One above T is that
        /// of a stop after the day, too early for the minimum up time.
        hour: u32,
        /// The lowest rule broken there; [`rule_text`] has its words.
        rule: u32,
    },
}

/// The best list of a day.
#[derive(Clone, Debug, PartialEq, Eq)]
pub struct Plan {
    /// The output at the end of each hour, in MW; that of hour k at k - 1.
    pub outputs: Vec<u16>,
    /// What it earns, in half-mills.
    pub profit: i64,
}

/// Which of two lists of T outputs is the better.
#[derive(Clone, Copy, Debug, PartialEq, Eq)]
pub enum Comparison {
    /// The first list is.
    First {
        /// What it earns, in half-mills.
        profit: i64,
    },
    /// The second list is.
    Second {
        /// What it earns, in half-mills.
        profit: i64,
    },
    /// Neither list passes.
    Neither,
}

/// Reads a case file, of form 3, of form 2 or of the old form.
///
/// # Errors
///
/// Refusals 1 to 8, 12 and 13.
pub fn read(file: &[u8]) -> Result<Case, Refusal> {
    // SAFETY: pointer and length are those of one slice, which is only read.
    let reading = unsafe { boundary::giqapsun_read(file.as_ptr(), file.len()) };
    accepted(reading.number, reading.c)
}

/// Writes the file of a case, in form 3.
///
/// # Errors
///
/// Refusals 2 to 8 and 13.
pub fn write(case: &Case) -> Result<Vec<u8>, Refusal> {
    let mut bytes = vec![0; FILE_MOST];
    // SAFETY: pointer and length are those of one slice, lent for the call alone.
    let written = unsafe { boundary::giqapsun_write(*case, bytes.as_mut_ptr(), bytes.len()) };
    bytes.truncate(written.length);
    accepted(written.number, bytes)
}

/// Checks a list of outputs, one for each hour; that of hour k at k - 1.
///
/// # Errors
///
/// Refusals 2 to 8 and 13 of the case, and 9 where the list is not of T outputs.
pub fn check(case: &Case, list: &[u16]) -> Result<Verdict, Refusal> {
    // SAFETY: pointer and length are those of one slice, which is only read.
    let verdict = unsafe { boundary::giqapsun_check(*case, list.as_ptr(), list.len()) };
    accepted(verdict.number, verdict_of(&verdict))
}

/// Finds the list that keeps every rule and earns most; among equal earners the one that is lower at the
/// first hour where two differ.
///
/// # Errors
///
/// Refusals 2 to 8 and 13 of the case, and 11 where no list keeps every rule.
pub fn best(case: &Case) -> Result<Plan, Refusal> {
    planned(case, |work, outputs| {
        // SAFETY: pointers and lengths are those of two slices, lent for the call alone.
        unsafe {
            boundary::giqapsun_best(*case, work.as_mut_ptr(), work.len(), outputs.as_mut_ptr(), outputs.len())
        }
    })
}

/// Finds the list of [`best`] for the case with the hour orders of a calendar, which replace its own; those
/// are still tested.
///
/// `on` and `off` are the on-line and the off-line windows of the year, sorted by first hour: two numbers for
/// each, its first hour, counted from 0 at the year's first hour, and its length in hours. A window holds its
/// first hour and not the hour after its last; windows may touch. The day begins at hour `first` of the year
/// and has `hours` hours, which T must be. Those in a window of `on` are on-line, those in one of `off`
/// off-line, all others free.
///
/// ```
/// use giqapsun::{best, best_by_calendar, read, Plan, Refusal};
///
/// // Case 7's unit, and 24 hours in which each MW that it gives earns.
/// let mut case = read(include_bytes!("../../../cases/case7.case"))?;
/// case.hours = 24;
/// case.prices[..24].fill(20);
///
/// // The 101st day of the year; an outage from its hour 9 to its hour 12, hours 2,408 to 2,411 of the year.
/// let off = [2408, 4];
/// let plan = best_by_calendar(&case, &[], &off, 2400, 24)?;
/// let outputs = [4, 4, 4, 4, 4, 3, 2, 1, 0, 0, 0, 0, 1, 2, 3, 4, 4, 4, 4, 4, 4, 4, 4, 4];
/// assert_eq!(plan, Plan { outputs: outputs.to_vec(), profit: 1300 });
///
/// // On the day after, no hour is in a window.
/// assert_eq!(best_by_calendar(&case, &[], &off, 2424, 24), best(&case));
/// // On the day itself the unit cannot be ordered on-line besides, and T is the number of its hours.
/// assert_eq!(best_by_calendar(&case, &[2411, 2], &off, 2400, 24), Err(Refusal::Conflict));
/// assert_eq!(best_by_calendar(&case, &[], &off, 2400, 25), Err(Refusal::Counts));
/// # Ok::<(), Refusal>(())
/// ```
///
/// # Errors
///
/// Refusal 14 of the windows and of the day, and 15 where an hour of the day is in both lists; then 2 to 8 and
/// 13 of the case, and 11 where no list keeps every rule. 2 is given where T is not `hours` too.
pub fn best_by_calendar(
    case: &Case,
    on: &[u16],
    off: &[u16],
    first: u16,
    hours: u16,
) -> Result<Plan, Refusal> {
    planned(case, |work, outputs| {
        // SAFETY: pointers and lengths are those of four slices, of which the windows are only read and the
        // others lent for the call alone.
        unsafe {
            boundary::giqapsun_best_by_calendar(
                *case,
                on.as_ptr(),
                on.len(),
                off.as_ptr(),
                off.len(),
                first,
                hours,
                work.as_mut_ptr(),
                work.len(),
                outputs.as_mut_ptr(),
                outputs.len(),
            )
        }
    })
}

/// Tells which of two lists is the better: one that passes beats one that does not; then the higher profit
/// wins; then the lower output at the first hour where they differ; identical lists give the first.
///
/// # Errors
///
/// Refusals 2 to 8 and 13 of the case, and 9 where either list is not of T outputs.
pub fn compare(case: &Case, first: &[u16], second: &[u16]) -> Result<Comparison, Refusal> {
    // SAFETY: pointers and lengths are those of two slices, which are only read.
    let choice = unsafe {
        boundary::giqapsun_better(*case, first.as_ptr(), first.len(), second.as_ptr(), second.len())
    };
    let answer = match choice.which {
        0 => Comparison::Neither,
        1 => Comparison::First { profit: choice.profit },
        _ => Comparison::Second { profit: choice.profit },
    };
    accepted(choice.number, answer)
}

/// The better of two lists by [`compare`], as it was lent: the very slice. Where neither passes, and on every
/// refusal, it is the empty part `&first[..0]`.
///
/// ```
/// use giqapsun::{better, read};
///
/// let case = read(include_bytes!("../../../cases/case7.case"))?;
/// // Two lists of three hours in one buffer; the second loses less.
/// let buffer = [2, 2, 2, 2, 1, 0];
/// let (first, second) = buffer.split_at(3);
/// assert!(std::ptr::eq(better(&case, first, second), &buffer[3..]));
/// // A list that breaks a rule twice, and one that is too short.
/// let broken = [0, 0, 0];
/// assert!(std::ptr::eq(better(&case, &broken, &broken), &broken[..0]));
/// assert!(std::ptr::eq(better(&case, &buffer[..2], second), &buffer[..0]));
/// # Ok::<(), giqapsun::Refusal>(())
/// ```
pub fn better<'a>(case: &Case, first: &'a [u16], second: &'a [u16]) -> &'a [u16] {
    match compare(case, first, second) {
        Ok(Comparison::First { .. }) => first,
        Ok(Comparison::Second { .. }) => second,
        Ok(Comparison::Neither) | Err(_) => &first[..0],
    }
}

/// How many numbers a search of this case is lent to work in: [`WORK`] where both minimum times are at most
/// [`SHORT_TIME`], [`WORK_MOST`] otherwise, whatever else the record holds. [`best`], [`best_by_calendar`] and
/// [`best_by_curve`] lend as many; a caller of [`boundary::giqapsun_best`] lends them himself.
///
/// ```
/// use giqapsun::{read, working_numbers, WORK, WORK_MOST};
///
/// let mut case = read(include_bytes!("../../../cases/case7.case"))?;
/// (case.minup, case.mindown) = (8, 8);
/// assert_eq!(working_numbers(&case), WORK);
/// case.minup = 20;
/// assert_eq!(working_numbers(&case), WORK_MOST);
/// # Ok::<(), giqapsun::Refusal>(())
/// ```
pub fn working_numbers(case: &Case) -> usize {
    // SAFETY: the call takes a record by value and no pointer.
    unsafe { boundary::giqapsun_work(*case) }
}

/// The plan of a search, which is lent as many numbers to work in as its case needs, and room for the outputs.
fn planned(
    case: &Case,
    search: impl FnOnce(&mut [i64], &mut [u16]) -> boundary::Plan,
) -> Result<Plan, Refusal> {
    let mut work = vec![0; working_numbers(case)];
    let mut outputs = vec![0; HOURS];
    let plan = search(&mut work, &mut outputs);
    outputs.truncate(case.hours);
    accepted(plan.number, Plan { outputs, profit: plan.profit })
}

/// The verdict beside number 0.
fn verdict_of(verdict: &boundary::Verdict) -> Verdict {
    match verdict.rule {
        0 => Verdict::Passes { profit: verdict.profit },
        rule => Verdict::Breaks { hour: verdict.hour, rule },
    }
}

/// The answer beside number 0, or the refusal.
fn accepted<A>(number: u32, answer: A) -> Result<A, Refusal> {
    match Refusal::from_number(number) {
        None => Ok(answer),
        Some(refusal) => Err(refusal),
    }
}
