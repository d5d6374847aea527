//! The kinds of searches and checks by a cost curve (request F-7).

use super::{kind, Kind};
use oracle::answers::{Schedule, Verdict};
use oracle::by_curve::{Filled, Lent};
use oracle::case::Case;
use oracle::curve::{faults, COSTS, CURVED, FLAT, STRAIGHT};
use oracle::curves::Drawn;
use oracle::refusals::{self, working_numbers};

/// A search or a check by a curve: what was lent, the list that was found or checked, and the answer.
pub struct Met {
    case: Case,
    drawn: Drawn,
    lent: Lent,
    is_check: bool,
    list: Vec<u16>,
    number: u32,
    rule: u32,
    /// The table that was filled, if one was.
    table: Vec<i64>,
    /// What F and A give, where it is known.
    plain: Option<Schedule>,
}

/// All kinds.
pub const KINDS: [Kind<Met>; 44] = [
    kind("found: flat", |met| met.is_found() && met.drawn.0 == FLAT),
    kind("straight", |met| met.is_found() && met.drawn.0 == STRAIGHT),
    kind("curved", |met| met.is_found() && met.drawn.0 == CURVED),
    kind("another list than by F and A", |met| met.is_found() && met.plain_gives_another()),
    kind("the list of F and A, and their profit", |met| met.is_found() && met.plain_gives_the_same()),
    kind("F and A at their limits", |met| {
        met.is_found() && (met.case.f, met.case.a) == (1_000_000, 100_000_000)
    }),
    kind("off-line all day, an entry for 0", |met| met.is_found() && met.is_off_line() && met.table[0] > 0),
    kind("a stop, an entry for 0", |met| met.is_found() && met.some_stop() && met.table[0] > 0),
    kind("a start", |met| met.is_found() && met.some_start()),
    kind("an hour of 800", |met| met.is_found() && met.most() == 800),
    kind("a minimum time above 8", |met| met.is_found() && met.has_long_time()),
    kind("48 hours or more", |met| met.is_found() && met.case.t >= 48),
    kind("from inside a sequence", |met| {
        met.is_found() && (met.case.up_stage > 0 || met.case.down_stage > 0)
    }),
    kind("more numbers than a table has", |met| met.is_found() && met.lent.table > COSTS),
    kind("11", |met| met.is_best(11)),
    kind("11 with an entry for 0", |met| met.is_best(11) && met.table[0] > 0),
    kind("11, more numbers than are asked for", |met| {
        met.is_best(11) && met.lent.table > COSTS && met.lent.numbers > working_numbers(&met.case)
    }),
    kind("10 by the table alone", |met| met.is_best(10) && met.is_short() == (true, false, false)),
    kind("10 by 800 numbers", |met| met.is_best(10) && met.lent.table == COSTS - 1),
    kind("10 by working numbers alone", |met| met.is_best(10) && met.is_short() == (false, true, false)),
    kind("10 by outputs alone", |met| met.is_best(10) && met.is_short() == (false, false, true)),
    kind("10 by all three", |met| met.is_best(10) && met.is_short() == (true, true, true)),
    kind("16 before 2", |met| met.is_best(16) && met.limit() == Some(2)),
    kind("16 before 3 to 8", |met| met.is_best(16) && matches!(met.limit(), Some(3..=8))),
    kind("16 before 13", |met| met.is_best(16) && met.limit() == Some(13)),
    kind("16 before 10", |met| met.is_best(16) && met.limit().is_none() && met.is_short().0),
    kind("16 alone", |met| {
        met.is_best(16) && met.limit().is_none() && met.is_short() == (false, false, false)
    }),
    kind("2 to 8 before 10", |met| !met.is_check && matches!(met.number, 2..=8) && met.lent.table < COSTS),
    kind("13 before 10", |met| met.is_best(13) && met.lent.table < COSTS),
    kind("5 by F or A", |met| met.is_best(5) && (met.case.f > 1_000_000 || met.case.a > 100_000_000)),
    kind("checked: passes", |met| met.is_checked(0) && met.rule == 0),
    kind("passes with a stop, an entry for 0", |met| {
        met.is_checked(0) && met.rule == 0 && met.some_stop() && met.table[0] > 0
    }),
    kind("breaks a rule", |met| met.is_checked(0) && met.rule > 0),
    kind("breaks, an hour of 801 or more", |met| met.is_checked(0) && met.rule > 0 && met.most() > 800),
    kind("breaks, an hour of 65,536 or more", |met| met.is_checked(0) && met.rule > 0 && met.most() > 65_535),
    kind("9", |met| met.is_checked(9)),
    kind("9 before 10", |met| met.is_checked(9) && met.lent.table < COSTS),
    kind("10 of a check", |met| met.is_checked(10)),
    kind("10 of a list that breaks a rule", |met| met.is_checked(10) && met.breaks()),
    kind("16 of a check before 2 to 13", |met| met.is_checked(16) && met.limit().is_some()),
    kind("16 before 9", |met| met.is_checked(16) && met.limit().is_none() && met.list.len() != met.case.t),
    kind("16 of a check before 10", |met| {
        met.is_checked(16) && met.limit().is_none() && met.lent.table < COSTS
    }),
    kind("2 to 8 before 9", |met| {
        met.is_check && matches!(met.number, 2..=8) && met.list.len() != met.case.t
    }),
    kind("13 before 9", |met| met.is_checked(13) && met.list.len() != met.case.t),
];

impl Met {
    /// A search.
    pub fn of_best(
        case: &Case,
        drawn: Drawn,
        lent: Lent,
        answer: &Filled<Schedule>,
        plain: Option<&Schedule>,
    ) -> Met {
        let Schedule { number, list, .. } = answer.answer.clone();
        let (table, plain) = (answer.table.clone(), plain.cloned());
        Met { case: *case, drawn, lent, is_check: false, list, number, rule: 0, table, plain }
    }

    /// A check.
    pub fn of_check(case: &Case, drawn: Drawn, list: &[u16], lent: usize, verdict: &Verdict) -> Met {
        let table = match (verdict.number, faults(drawn.0, &drawn.1)) {
            (0, Ok(tested)) => vec![tested.cost(0)],
            _ => Vec::new(),
        };
        Met {
            case: *case,
            drawn,
            lent: Lent { table: lent, numbers: 0, outputs: 0 },
            is_check: true,
            list: list.to_vec(),
            number: verdict.number,
            rule: verdict.rule,
            table,
            plain: None,
        }
    }

    /// Whether a search has this answer, a check has, and a search found a list.
    fn is_best(&self, number: u32) -> bool {
        !self.is_check && self.number == number
    }
    fn is_checked(&self, number: u32) -> bool {
        self.is_check && self.number == number
    }
    fn is_found(&self) -> bool {
        self.is_best(0)
    }

    /// Whether F and A give another list, or the same and its profit.
    fn plain_gives_another(&self) -> bool {
        self.plain.as_ref().is_some_and(|plain| plain.number == 0 && plain.list != self.list)
    }
    fn plain_gives_the_same(&self) -> bool {
        self.drawn.0 == STRAIGHT && self.plain.as_ref().is_some_and(|plain| plain.list == self.list)
    }

    /// The outputs of hours 0 to T, each with the next.
    fn steps(&self) -> impl Iterator<Item = (u16, u16)> + '_ {
        let before = std::iter::once(self.case.p0).chain(self.list.iter().copied());
        before.zip(self.list.iter().copied())
    }

    /// Whether the unit is off-line from hour 0 on.
    fn is_off_line(&self) -> bool {
        self.case.p0 == 0 && self.list.iter().all(|&output| output == 0)
    }

    /// Whether there is a stop in the list, or a start.
    fn some_stop(&self) -> bool {
        self.steps().any(|(before, output)| before > 0 && output == 0)
    }
    fn some_start(&self) -> bool {
        self.steps().any(|(before, output)| before == 0 && output > 0)
    }

    /// The most half-megawatt-hours of an hour.
    fn most(&self) -> u32 {
        self.steps().map(|(before, output)| u32::from(before) + u32::from(output)).max().unwrap_or(0)
    }

    /// Whether a minimum time is above 8 hours.
    fn has_long_time(&self) -> bool {
        self.case.min_up > refusals::SHORT_TIME || self.case.min_down > refusals::SHORT_TIME
    }

    /// The refusal of the record.
    fn limit(&self) -> Option<u32> {
        refusals::record(&self.case).err()
    }

    /// Whether the table, the working numbers and the outputs of a search are short.
    fn is_short(&self) -> (bool, bool, bool) {
        let Lent { table, numbers, outputs } = self.lent;
        (table < COSTS, numbers < working_numbers(&self.case), outputs < self.case.t)
    }

    /// Whether the list of a check, of T outputs, breaks a rule.
    fn breaks(&self) -> bool {
        self.list.len() == self.case.t && oracle::rules::first_breach(&self.case, &self.list).is_some()
    }
}
