//! The kinds of lists that are checked, by a start before the day and a stop after it (request F-5).

use super::{kind, Kind};
use oracle::answers::Verdict;
use oracle::case::Case;
use oracle::opening::left;
use oracle::rules::{closing, starts_at_end};

/// A list that was checked, and its verdict.
pub struct Met {
    case: Case,
    list: Vec<u16>,
    verdict: Verdict,
    /// The stage of a stop after T, or 0, and the start sequences that hour T lies in.
    closing: usize,
    starts_at_end: i64,
}

/// All kinds.
pub const KINDS: [Kind<Met>; 32] = [
    kind("passes, to PD(2)", |met| met.passes() && met.closing == 2),
    kind("to PD(3)", |met| met.passes() && met.closing == 3),
    kind("to PD(4)", |met| met.passes() && met.closing == 4),
    kind("to PD(5)", |met| met.passes() && met.closing == 5),
    kind("to PD(6)", |met| met.passes() && met.closing == 6),
    kind("to PD(7)", |met| met.passes() && met.closing == 7),
    kind("to PD(8)", |met| met.passes() && met.closing == 8),
    kind("from a start", |met| met.passes() && met.case.up_stage > 0),
    kind("from a stop", |met| met.passes() && met.case.down_stage > 0),
    kind("to PD(i) in a start sequence", |met| met.passes() && met.ends_on_pd() && met.starts_at_end > 0),
    kind("to PD(i) in a start before the day", |met| {
        met.passes() && met.ends_on_pd() && met.starts_at_end > 0 && met.is_on_line()
    }),
    kind("PD(i) at stage UD of a start", |met| met.ends_on_pd() && met.is_at_last_stage()),
    kind("PD(i) at stage UD of a start before the day", |met| {
        met.ends_on_pd() && met.is_at_last_stage() && met.is_on_line()
    }),
    kind("the minimum up time to the hour by h", |met| met.is_just_in_time() && met.is_on_line()),
    kind("the minimum up time to the hour by a start", |met| met.is_just_in_time() && !met.is_on_line()),
    kind("breaks, to PD(i)", |met| met.breaks() && met.closing > 0),
    kind("2 at hour 0 in a stop", |met| met.breaks_at(0, 2) && met.case.down_stage > 0),
    kind("4 at hour 0 in a stop", |met| met.breaks_at(0, 4) && met.case.down_stage > 0),
    kind("4 at hour 0 by a stop after T", |met| met.breaks_at(0, 4) && met.closing > 0),
    kind("1 at hour 1 in a start", |met| met.breaks_at(1, 1) && met.case.up_stage > 0),
    kind("3 at hour 1 in a start", |met| met.breaks_at(1, 3) && met.case.up_stage > 0),
    kind("2 by a stop after T", |met| met.breaks_rule(2) && met.closing > 0),
    kind("4 by a stop after T", |met| met.breaks_rule(4) && met.closing > 0),
    kind("6 beside a stop after T", |met| met.breaks_rule(6) && met.closing > 0),
    kind("8", |met| met.breaks_rule(8)),
    kind("10 by a stop after T", |met| met.breaks_rule(10) && met.closing > 0),
    kind("11 by a stop after T", |met| met.breaks_rule(11) && met.closing > 0),
    kind("21 after T by h", |met| met.is_21_after_t() && met.is_on_line() && met.case.up_stage == 0),
    kind("21 after T by a start before the day", |met| {
        met.is_21_after_t() && met.is_on_line() && met.case.up_stage > 0
    }),
    kind("21 after T by a start of the day", |met| met.is_21_after_t() && !met.is_on_line()),
    kind("21 after T in a stop", |met| met.is_21_after_t() && met.case.down_stage > 0),
    kind("21 within the day in a stop", |met| {
        met.breaks_rule(21) && !met.is_21_after_t() && met.case.down_stage > 0
    }),
];

impl Met {
    /// A list of T outputs of a case within the limits, with its verdict.
    pub fn new(case: &Case, list: &[u16], verdict: &Verdict) -> Met {
        let (closing, starts_at_end) = (closing(case, list).unwrap_or(0), starts_at_end(case, list));
        Met { case: *case, list: list.to_vec(), verdict: *verdict, closing, starts_at_end }
    }

    /// Whether the list passes, or breaks a rule.
    fn passes(&self) -> bool {
        self.verdict.rule == 0
    }
    fn breaks(&self) -> bool {
        self.verdict.rule > 0
    }

    /// Whether it breaks this rule first, and at this hour.
    fn breaks_rule(&self, rule: u32) -> bool {
        self.verdict.rule == rule
    }
    fn breaks_at(&self, hour: u32, rule: u32) -> bool {
        self.breaks_rule(rule) && self.verdict.hour == hour
    }

    /// Whether it breaks 21 at the stop after T.
    fn is_21_after_t(&self) -> bool {
        self.breaks_rule(21) && self.verdict.hour as usize > self.case.t
    }

    /// Whether it passes, and its stop after T comes the minimum up time after the start.
    fn is_just_in_time(&self) -> bool {
        self.passes() && self.closing > 0 && {
            let hours = usize::from(left(&self.case, &self.list).h) + self.case.dd - self.closing;
            hours == usize::from(self.case.min_up)
        }
    }

    /// Whether its last output is PD(i), i of 2 or more.
    fn ends_on_pd(&self) -> bool {
        self.list.last().is_some_and(|last| self.case.pd[1..self.case.dd].contains(last))
    }

    /// Whether it is on-line in every hour, hour 0 included.
    fn is_on_line(&self) -> bool {
        self.case.p0 > 0 && !self.list.contains(&0)
    }

    /// Whether hour T is the last of a start sequence, and of one alone.
    fn is_at_last_stage(&self) -> bool {
        let run = self.list.iter().rev().take_while(|&&output| output > 0).count();
        let whole = run == self.list.len();
        let since = if whole { run + usize::from(self.case.up_stage) } else { run };
        let started = !whole || self.case.p0 == 0 || self.case.up_stage > 0;
        self.starts_at_end == 1 && started && since == self.case.ud
    }
}
