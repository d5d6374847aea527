//! The rules of a list (scope, "Rules of a list"): constraints (1) to (12) of the source, summed
//! as printed there, and rules 21 to 23 of the scope; with the start that stands before the day and the stop that
//! stands after it (request F-5).

use crate::case::{Case, MOST_HOURS, MOST_STAGES, OFF_LINE, ON_LINE};

/// Rules that hold at hour 0.
pub const RULES_AT_HOUR_0: [u32; 2] = [2, 4];

/// Rules that hold at hours 1 to T, lowest number first.
pub const RULES: [u32; 15] = [1, 2, 3, 4, 5, 6, 7, 8, 9, 10, 11, 12, 21, 22, 23];

/// The rule that holds at the stop after T.
const RULES_AFTER_DAY: [u32; 1] = [21];

/// Hours kept before hour 0 and after the last one, where y and z are 0 but for one start before the day and one stop
/// after it. The sums reach back to hour 0 - UD + 1 and ahead to hour T + UD + DD - 2.
const MARGIN: usize = 2 * MOST_STAGES;

/// Marks of hours from -MARGIN to 168 + MARGIN.
type Marks = [i64; MARGIN + MOST_HOURS + 1 + MARGIN];

/// The place of a breach.
#[derive(Clone, Copy, Debug, PartialEq, Eq)]
pub struct Breach {
    pub hour: u32,
    pub rule: u32,
}

/// One list with one case, as the variables of the source: p(k), v(k), y(k) and z(k).
pub struct Day<'a> {
    case: &'a Case,
    /// Number of hours T.
    hours: i64,
    p: [i64; MOST_HOURS + 1],
    v: [i64; MOST_HOURS + 1],
    y: Marks,
    z: Marks,
}

impl<'a> Day<'a> {
    /// The day that stays at output 0; its case has passed the refusals. A start whose stage p(0) has reached stands at
    /// hour 1 - stage.
    pub fn new(case: &'a Case) -> Day<'a> {
        let mut day = Day {
            case,
            hours: case.t as i64,
            p: [0; MOST_HOURS + 1],
            v: [0; MOST_HOURS + 1],
            y: [0; MARGIN + MOST_HOURS + 1 + MARGIN],
            z: [0; MARGIN + MOST_HOURS + 1 + MARGIN],
        };
        day.p[0] = i64::from(case.p0);
        day.v[0] = i64::from(case.p0 > 0);
        if case.up_stage > 0 {
            day.y[MARGIN + 1 - usize::from(case.up_stage)] = 1;
        }
        day.mark_starts_and_stops();
        day
    }

    /// Takes over a list of T outputs: v(k) is 1 exactly if p(k) is above 0. The last one tells whether there is a stop
    /// after T.
    pub fn set_list(&mut self, list: &[u16]) {
        for (i, &output) in list.iter().enumerate() {
            self.p[i + 1] = i64::from(output);
            self.v[i + 1] = i64::from(output > 0);
        }
        self.mark_starts_and_stops();
        self.set_closing(self.closing());
    }

    /// Takes over which hours are on-line: bit k - 1 of `on_line` for hour k. There is no stop after T.
    pub fn set_commitment(&mut self, on_line: u64) {
        for k in 1..=self.case.t {
            self.v[k] = (on_line >> (k - 1) & 1) as i64;
        }
        self.mark_starts_and_stops();
        self.set_closing(None);
    }

    /// Takes over the output of one hour that is on-line exactly if the output is above 0.
    pub fn set_output(&mut self, k: usize, output: u16) {
        debug_assert_eq!(self.v[k], i64::from(output > 0));
        self.p[k] = i64::from(output);
    }

    /// y(k) is 1 exactly if v(k) is 1 and v(k-1) is 0, z(k) the reverse, for k from 1 to T.
    fn mark_starts_and_stops(&mut self) {
        for k in 1..=self.case.t {
            let (before, now) = (self.v[k - 1], self.v[k]);
            self.y[MARGIN + k] = i64::from(now == 1 && before == 0);
            self.z[MARGIN + k] = i64::from(now == 0 && before == 1);
        }
    }

    /// The stage that a stop after T has reached: the i of 2 or more with p(T) = PD(i), where hour T lies in no start
    /// sequence.
    pub fn closing(&self) -> Option<usize> {
        let last = self.p(self.hours);
        let stage = (2..=self.dd()).find(|&i| last == self.pd(i) && self.sum_y(self.hours) == 0);
        stage.map(|i| i as usize)
    }

    /// The stages of a stop after T that go with the hours on-line, beside none.
    pub fn closings(&self) -> impl Iterator<Item = Option<usize>> {
        let may_close = self.v(self.hours) == 1 && self.sum_y(self.hours) == 0;
        let last = if may_close { self.case.dd } else { 1 };
        std::iter::once(None).chain((2..=last).map(Some))
    }

    /// Marks the stop after T that has reached this stage, at hour T + DD + 1 - i, or none.
    pub fn set_closing(&mut self, closing: Option<usize>) {
        let after = MARGIN + self.case.t + 1;
        self.z[after..after + self.case.dd].fill(0);
        if let Some(stage) = closing {
            self.z[after + self.case.dd - stage] = 1;
        }
    }

    /// p(k), for k from 0 to T.
    fn p(&self, k: i64) -> i64 {
        self.p[k as usize]
    }

    /// v(k), for k from 0 to T.
    fn v(&self, k: i64) -> i64 {
        self.v[k as usize]
    }

    /// y(k), 0 above T, and for k below 1 but in the hour of a start before the day.
    fn y(&self, k: i64) -> i64 {
        self.y[(k + MARGIN as i64) as usize]
    }

    /// z(k), 0 for k below 1, and above T but in the hour of a stop after it.
    fn z(&self, k: i64) -> i64 {
        self.z[(k + MARGIN as i64) as usize]
    }

    /// UD and DD.
    fn ud(&self) -> i64 {
        self.case.ud as i64
    }
    fn dd(&self) -> i64 {
        self.case.dd as i64
    }

    /// PU(i) and PD(i), for i from 1.
    fn pu(&self, i: i64) -> i64 {
        i64::from(self.case.pu[i as usize - 1])
    }
    fn pd(&self, i: i64) -> i64 {
        i64::from(self.case.pd[i as usize - 1])
    }

    /// Capacity and minimum output.
    fn capacity(&self) -> i64 {
        i64::from(self.case.capacity)
    }
    fn minimum(&self) -> i64 {
        i64::from(self.case.minimum)
    }

    /// Sum for i from 1 to UD of y(k-i+1).
    fn sum_y(&self, k: i64) -> i64 {
        (1..=self.ud()).map(|i| self.y(k - i + 1)).sum()
    }

    /// Sum for i from 1 to DD of z(k+i).
    fn sum_z(&self, k: i64) -> i64 {
        (1..=self.dd()).map(|i| self.z(k + i)).sum()
    }

    /// Sum for i from 1 to UD of PU(i) y(k-i+1).
    fn sum_pu_y(&self, k: i64) -> i64 {
        (1..=self.ud()).map(|i| self.pu(i) * self.y(k - i + 1)).sum()
    }

    /// Sum for i from 1 to DD of PD(i) z(k+DD-i+1).
    fn sum_pd_z(&self, k: i64) -> i64 {
        (1..=self.dd()).map(|i| self.pd(i) * self.z(k + self.dd() - i + 1)).sum()
    }

    /// (1): lower limit of the output, with the start-up trajectory.
    fn constraint_1(&self, k: i64) -> bool {
        let idle = self.v(k) - self.sum_z(k) - self.sum_y(k);
        self.p(k) >= self.minimum() * idle + self.sum_pu_y(k)
    }

    /// (2): lower limit of the output, with the shut-down trajectory.
    fn constraint_2(&self, k: i64) -> bool {
        let idle = self.v(k) - self.sum_z(k) - self.sum_y(k);
        self.p(k) >= self.minimum() * idle + self.sum_pd_z(k)
    }

    /// (3): upper limit of the output, with the start-up trajectory.
    fn constraint_3(&self, k: i64) -> bool {
        self.p(k) <= self.sum_pu_y(k) + self.capacity() * (self.v(k) - self.sum_y(k))
    }

    /// (4): upper limit of the output, with the shut-down trajectory.
    fn constraint_4(&self, k: i64) -> bool {
        self.p(k) <= self.sum_pd_z(k) + self.capacity() * (self.v(k) - self.sum_z(k))
    }

    /// (5): ramp-up limit.
    fn constraint_5(&self, k: i64) -> bool {
        let ramp_up = i64::from(self.case.ramp_up);
        let rise = self.p(k) - self.p(k - 1);
        rise <= self.capacity() * self.sum_y(k) + ramp_up * (self.v(k) - self.sum_y(k))
    }

    /// (6): ramp-down limit.
    fn constraint_6(&self, k: i64) -> bool {
        let ramp_down = i64::from(self.case.ramp_down);
        let sum: i64 = (1..=self.dd()).map(|i| self.z(k + i - 1)).sum();
        let fall = self.p(k - 1) - self.p(k);
        fall <= self.capacity() * sum + ramp_down * (self.v(k - 1) - sum)
    }

    /// (7): starts and stops are the changes of v.
    fn constraint_7(&self, k: i64) -> bool {
        self.y(k) - self.z(k) == self.v(k) - self.v(k - 1)
    }

    /// (8): on-line while starting up.
    fn constraint_8(&self, k: i64) -> bool {
        self.v(k) >= self.sum_y(k)
    }

    /// (9): on-line while shutting down.
    fn constraint_9(&self, k: i64) -> bool {
        self.v(k) >= self.sum_z(k)
    }

    /// (10): a start and the next stop overlap in one hour at most.
    fn constraint_10(&self, k: i64) -> bool {
        let sum: i64 = (1..=self.ud() + self.dd() - 1).map(|i| self.z(k + i - 1)).sum();
        self.y(k) + sum <= 1
    }

    /// (11): the hour of overlap is at PU(UD) at least.
    fn constraint_11(&self, k: i64) -> bool {
        self.p(k) >= self.pu(self.ud()) * (self.sum_z(k) + self.sum_y(k) - 1)
    }

    /// (12): the hour of overlap is at PD(1) at least.
    fn constraint_12(&self, k: i64) -> bool {
        self.p(k) >= self.pd(1) * (self.sum_z(k) + self.sum_y(k) - 1)
    }

    /// Rule 21: a stop at k comes the minimum up time or more after the latest start before it,
    /// or, with no such start, h + k - 1 is that long.
    fn rule_21(&self, k: i64) -> bool {
        let latest_start = || (1 - self.ud()..k).rev().find(|&s| self.y(s) == 1);
        self.z(k) == 0 || self.time_since(latest_start(), k) >= i64::from(self.case.min_up)
    }

    /// Rule 22: a start at k comes the minimum down time or more after the latest stop before it,
    /// or, with no such stop, h + k - 1 is that long.
    fn rule_22(&self, k: i64) -> bool {
        let latest_stop = || (1..k).rev().find(|&c| self.z(c) == 1);
        self.y(k) == 0 || self.time_since(latest_stop(), k) >= i64::from(self.case.min_down)
    }

    /// Hours from the latest change to hour k; with no such change, h + k - 1.
    fn time_since(&self, latest_change: Option<i64>, k: i64) -> i64 {
        match latest_change {
            Some(hour) => k - hour,
            None => i64::from(self.case.h) + k - 1,
        }
    }

    /// Rule 23: the order of the hour is kept.
    fn rule_23(&self, k: i64) -> bool {
        match self.case.orders[k as usize - 1] {
            ON_LINE => self.v(k) == 1,
            OFF_LINE => self.v(k) == 0,
            _ => true,
        }
    }

    /// Whether the rule of this number holds at hour k.
    pub fn holds(&self, rule: u32, k: i64) -> bool {
        match rule {
            1 => self.constraint_1(k),
            2 => self.constraint_2(k),
            3 => self.constraint_3(k),
            4 => self.constraint_4(k),
            5 => self.constraint_5(k),
            6 => self.constraint_6(k),
            7 => self.constraint_7(k),
            8 => self.constraint_8(k),
            9 => self.constraint_9(k),
            10 => self.constraint_10(k),
            11 => self.constraint_11(k),
            12 => self.constraint_12(k),
            21 => self.rule_21(k),
            22 => self.rule_22(k),
            23 => self.rule_23(k),
            _ => unreachable!("no rule has number {rule}"),
        }
    }

    /// The lowest number of a rule broken at hour k.
    pub fn broken_at(&self, k: i64) -> Option<u32> {
        let rules: &[u32] = match k {
            0 => &RULES_AT_HOUR_0,
            _ if k <= self.hours => &RULES,
            _ => &RULES_AFTER_DAY,
        };
        rules.iter().copied().find(|&rule| !self.holds(rule, k))
    }

    /// The first breach: the earliest hour, hour 0 and that of a stop after T included, and there the lowest number.
    pub fn first_breach(&self) -> Option<Breach> {
        self.first_breach_from(0)
    }

    /// The first breach at hour `first` or later.
    pub fn first_breach_from(&self, first: i64) -> Option<Breach> {
        let last = self.hours + self.dd() - 1;
        (first..=last).find_map(|k| self.broken_at(k).map(|rule| Breach { hour: k as u32, rule }))
    }
}

/// The day of a list of T outputs.
fn day<'a>(case: &'a Case, list: &[u16]) -> Day<'a> {
    let mut day = Day::new(case);
    day.set_list(list);
    day
}

/// The first breach of a list of T outputs.
pub fn first_breach(case: &Case, list: &[u16]) -> Option<Breach> {
    day(case, list).first_breach()
}

/// The stage that a stop after T has reached in a list of T outputs, if there is one.
pub fn closing(case: &Case, list: &[u16]) -> Option<usize> {
    day(case, list).closing()
}

/// The start sequences that hour T of a list of T outputs lies in.
pub fn starts_at_end(case: &Case, list: &[u16]) -> i64 {
    let day = day(case, list);
    day.sum_y(day.hours)
}
