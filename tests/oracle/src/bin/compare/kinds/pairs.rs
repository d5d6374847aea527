//! The kinds of pairs of lists (request F-1).

use super::{kind, Kind};
use crate::calls::Pair;
use oracle::case::Case;
use oracle::pair::{Outcome, Which, Why};
use oracle::profit::profit;

/// A pair that was compared, and what came of it.
pub struct Met {
    case: Case,
    first: Vec<u16>,
    second: Vec<u16>,
    begins: Option<usize>,
    outcome: Outcome,
}

/// All kinds.
pub const KINDS: [Kind<Met>; 24] = [
    kind("first alone passes", |met| met.is(Which::First, Why::OtherBreaks)),
    kind("second alone passes", |met| met.is(Which::Second, Why::OtherBreaks)),
    kind("the broken one would earn more", |met| met.broken_would_earn_more()),
    kind("first earns more", |met| met.is(Which::First, Why::HigherProfit)),
    kind("second earns more", |met| met.is(Which::Second, Why::HigherProfit)),
    kind("more by the higher list", |met| met.more_by_the_higher()),
    kind("tie to the first", |met| met.tie_to(Which::First)),
    kind("tie to the second", |met| met.tie_to(Which::Second)),
    kind("tie to the larger sum", |met| met.tie_to_the_larger_sum()),
    kind("identical", |met| met.is(Which::First, Why::Identical)),
    kind("neither passes", |met| met.outcome == Outcome::Neither),
    kind("same memory twice", |met| met.begins == Some(0)),
    kind("overlapping memory", |met| met.begins.is_some_and(|begins| begins > 0)),
    kind("9 by the first", |met| met.refused_by_length(true, false)),
    kind("9 by the second", |met| met.refused_by_length(false, true)),
    kind("9 by both", |met| met.refused_by_length(true, true)),
    kind("refused by 2", |met| met.outcome == Outcome::Refused(2)),
    kind("by 3", |met| met.outcome == Outcome::Refused(3)),
    kind("by 4", |met| met.outcome == Outcome::Refused(4)),
    kind("by 5", |met| met.outcome == Outcome::Refused(5)),
    kind("by 6", |met| met.outcome == Outcome::Refused(6)),
    kind("by 7", |met| met.outcome == Outcome::Refused(7)),
    kind("by 8", |met| met.outcome == Outcome::Refused(8)),
    kind("by 13", |met| met.outcome == Outcome::Refused(13)),
];

impl Met {
    /// A pair with its outcome.
    pub fn new(case: &Case, pair: &Pair, outcome: Outcome) -> Met {
        let Pair { first, second, begins } = *pair;
        Met { case: *case, first: first.to_vec(), second: second.to_vec(), begins, outcome }
    }

    /// Whether this list is the better one, and for this reason.
    fn is(&self, wanted: Which, reason: Why) -> bool {
        matches!(self.outcome, Outcome::Better { which, why, .. } if (which, why) == (wanted, reason))
    }

    /// Whether equal profit gives this list.
    fn tie_to(&self, wanted: Which) -> bool {
        matches!(self.outcome, Outcome::Better { which, why: Why::LowerAt(_), .. } if which == wanted)
    }

    /// The better list, and the other one.
    fn better_first(&self) -> Option<(&[u16], &[u16])> {
        match self.outcome {
            Outcome::Better { which: Which::First, .. } => Some((&self.first, &self.second)),
            Outcome::Better { which: Which::Second, .. } => Some((&self.second, &self.first)),
            _ => None,
        }
    }

    /// Whether one passes, and the broken one has the higher sum of profits.
    fn broken_would_earn_more(&self) -> bool {
        let alone = matches!(self.outcome, Outcome::Better { why: Why::OtherBreaks, .. });
        let more = |(better, other)| profit(&self.case, other) > profit(&self.case, better);
        alone && self.better_first().is_some_and(more)
    }

    /// Whether the list that earns more is higher at the first hour where the two differ.
    fn more_by_the_higher(&self) -> bool {
        let more = matches!(self.outcome, Outcome::Better { why: Why::HigherProfit, .. });
        more && self.better_first().is_some_and(|(better, other)| better > other)
    }

    /// Whether equal profit gives the list that has the larger sum of outputs.
    fn tie_to_the_larger_sum(&self) -> bool {
        let sum = |list: &[u16]| list.iter().map(|&output| u64::from(output)).sum::<u64>();
        let tie = self.tie_to(Which::First) || self.tie_to(Which::Second);
        tie && self.better_first().is_some_and(|(better, other)| sum(better) > sum(other))
    }

    /// Whether 9 is the answer, and these lists are the ones that are not of T outputs.
    fn refused_by_length(&self, first: bool, second: bool) -> bool {
        let wrong = |list: &[u16]| list.len() != self.case.t;
        self.outcome == Outcome::Refused(9) && (wrong(&self.first), wrong(&self.second)) == (first, second)
    }
}
