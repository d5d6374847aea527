//! Two lists side by side (request F-1, here the request): which of the two is to be offered, what it earns, and
//! which part of the two lists is handed back.

use crate::case::Case;
use crate::profit::profit;
use crate::refusals;
use crate::rules::first_breach;

/// One of the two lists.
#[derive(Clone, Copy, Debug, PartialEq, Eq)]
pub enum Which {
    First,
    Second,
}

/// Why a list is the better one, in the order of the request.
#[derive(Clone, Copy, Debug, PartialEq, Eq)]
pub enum Why {
    /// It passes, and the other one does not.
    OtherBreaks,
    /// Both pass, and it has the higher profit.
    HigherProfit,
    /// Both earn the same, and at this hour, the first where they differ, it has the lower output.
    LowerAt(usize),
    /// The two are identical.
    Identical,
}

/// What comes of two lists.
#[derive(Clone, Copy, Debug, PartialEq, Eq)]
pub enum Outcome {
    Refused(u32),
    Neither,
    Better { which: Which, why: Why, profit: i64 },
}

/// The answer in numbers: number 0, which 1 or 2 and what that list earns; three zeros if neither passes; or a
/// refusal, and which and profit 0.
#[derive(Clone, Copy, Debug, PartialEq, Eq)]
pub struct Choice {
    pub number: u32,
    pub which: u32,
    pub profit: i64,
}

/// The tests of a comparison: 2 to 8 and 13, then 9 if either list is not of T outputs.
fn tested(case: &Case, first: &[u16], second: &[u16]) -> refusals::Test {
    refusals::record(case)?;
    refusals::list_length(case, first.len())?;
    refusals::list_length(case, second.len())
}

/// What a list of T outputs earns; none if it does not pass.
fn earned(case: &Case, list: &[u16]) -> Option<i64> {
    match first_breach(case, list) {
        Some(_) => None,
        None => Some(profit(case, list)),
    }
}

/// The request, sentence by sentence: both lists are checked against the case; a list that passes beats one that does
/// not; then the higher profit wins; what is left is for `by_output`.
pub fn outcome(case: &Case, first: &[u16], second: &[u16]) -> Outcome {
    if let Err(number) = tested(case, first, second) {
        return Outcome::Refused(number);
    }
    let (which, why, profit) = match (earned(case, first), earned(case, second)) {
        (None, None) => return Outcome::Neither,
        (Some(profit), None) => (Which::First, Why::OtherBreaks, profit),
        (None, Some(profit)) => (Which::Second, Why::OtherBreaks, profit),
        (Some(one), Some(other)) if one > other => (Which::First, Why::HigherProfit, one),
        (Some(one), Some(other)) if one < other => (Which::Second, Why::HigherProfit, other),
        (Some(profit), Some(_)) => {
            let (which, why) = by_output(first, second);
            (which, why, profit)
        }
    };
    Outcome::Better { which, why, profit }
}

/// The lower output at the first hour where two lists of one length differ wins; identical lists give the first.
fn by_output(first: &[u16], second: &[u16]) -> (Which, Why) {
    for k in 1..=first.len() {
        if first[k - 1] < second[k - 1] {
            return (Which::First, Why::LowerAt(k));
        }
        if second[k - 1] < first[k - 1] {
            return (Which::Second, Why::LowerAt(k));
        }
    }
    (Which::First, Why::Identical)
}

/// The answer to two lists.
pub fn choice(case: &Case, first: &[u16], second: &[u16]) -> Choice {
    outcome(case, first, second).in_numbers()
}

impl Outcome {
    /// The outcome as an answer.
    pub fn in_numbers(&self) -> Choice {
        match *self {
            Outcome::Refused(number) => Choice { number, which: 0, profit: 0 },
            Outcome::Neither => Choice { number: 0, which: 0, profit: 0 },
            Outcome::Better { which: Which::First, profit, .. } => Choice { number: 0, which: 1, profit },
            Outcome::Better { which: Which::Second, profit, .. } => Choice { number: 0, which: 2, profit },
        }
    }

    /// The part that is handed back: the better list, as it was lent, or an empty part of the first.
    pub fn part<'a>(&self, first: &'a [u16], second: &'a [u16]) -> &'a [u16] {
        match self {
            Outcome::Better { which: Which::First, .. } => first,
            Outcome::Better { which: Which::Second, .. } => second,
            Outcome::Neither | Outcome::Refused(_) => &first[..0],
        }
    }
}
