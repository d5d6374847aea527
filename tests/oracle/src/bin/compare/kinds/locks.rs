//! The kinds of days that are searched, by their minimum times above 8 hours and by what those lock (request
//! F-6): where the best list starts and stops as soon as it may.

use super::{kind, Kind};
use oracle::answers::Schedule;
use oracle::case::{Case, FREE};
use oracle::dp::best_list;
use oracle::refusals::SHORT_TIME;
use oracle::rules::closing;

/// A start or a stop of a list, with the hours since the change before it.
#[derive(Clone, Copy)]
pub struct Change {
    /// Its hour, above T for a stop after the day.
    pub hour: usize,
    pub is_start: bool,
    pub hours: usize,
    /// Whether the change before it is one of the day; if not, the hours go by h.
    pub after_change: bool,
}

/// The starts and stops of a list of T outputs, the stop after T included.
pub fn changes(case: &Case, list: &[u16]) -> Vec<Change> {
    let mut changes: Vec<Change> = Vec::new();
    let mut add = |hour: usize, is_start: bool| {
        let (hours, after_change) = match changes.last() {
            Some(last) => (hour - last.hour, true),
            None => (usize::from(case.h) + hour - 1, false),
        };
        changes.push(Change { hour, is_start, hours, after_change });
    };
    let mut before = case.p0;
    for (hour, &output) in (1..).zip(list) {
        if (before > 0) != (output > 0) {
            add(hour, output > 0);
        }
        before = output;
    }
    if let Some(stage) = closing(case, list) {
        add(case.t + case.dd + 1 - stage, false);
    }
    changes
}

/// A day that was searched, its answer, and the starts and stops of the best list.
pub struct Met {
    pub case: Case,
    pub answer: Schedule,
    pub changes: Vec<Change>,
}

/// All kinds.
pub const KINDS: [Kind<Met>; 23] = [
    kind("minimum up time alone above 8", |met| met.is_found() && met.locks(true, false)),
    kind("minimum down time alone", |met| met.is_found() && met.locks(false, true)),
    kind("both", |met| met.is_found() && met.locks(true, true)),
    kind("stop just in time after a start of the day", |met| met.some_stop(|_, stop| stop.after_change)),
    kind("by h", |met| met.some_stop(|case, stop| !stop.after_change && !has_stage(case))),
    kind("after a start before the day", |met| {
        met.some_stop(|case, stop| !stop.after_change && case.up_stage > 0)
    }),
    kind("of the stop that the day opens in", |met| {
        met.some_stop(|case, stop| !stop.after_change && case.down_stage > 0)
    }),
    kind("at T", |met| met.some_stop(|case, stop| stop.hour == case.t)),
    kind("after T, by a start of the day", |met| {
        met.some_stop(|case, stop| stop.hour > case.t && stop.after_change)
    }),
    kind("after T, by h", |met| met.some_stop(|case, stop| stop.hour > case.t && !stop.after_change)),
    kind("start just in time after a stop of the day", |met| met.some_start(|_, start| start.after_change)),
    kind("start by h", |met| met.some_start(|_, start| !start.after_change)),
    kind("start after the stop that the day opens in", |met| {
        met.case.down_stage > 0 && met.changes.get(1).is_some_and(|start| met.is_just_in_time(start))
    }),
    kind("start at T", |met| met.some_start(|case, start| start.hour == case.t)),
    kind("run to T whose minimum time is over there", |met| met.runs_to_t(0)),
    kind("an hour later", |met| met.runs_to_t(1)),
    kind("on-line all day inside a lock", |met| met.is_found() && met.is_locked_to(met.case.t, true)),
    kind("off-line all day inside a lock", |met| met.is_found() && met.is_locked_to(met.case.t, false)),
    kind("opens inside a lock of 20", |met| {
        met.is_found() && met.case.min_up == 20 && met.is_locked_to(0, true) && !has_stage(&met.case)
    }),
    kind("opens off-line inside a lock of 24", |met| {
        met.is_found() && met.case.min_down == 24 && met.is_locked_to(0, false)
    }),
    kind("ordered and free", |met| {
        met.is_found() && met.case.orders[..met.case.t].iter().any(|&o| o != FREE)
    }),
    kind("11 by a minimum time alone", |met| met.is_without_list_by_time_alone()),
    kind("11 by an opening stop", |met| met.answer.number == 11 && met.is_stopped_early()),
];

/// Whether a day opens inside a start or a stop.
fn has_stage(case: &Case) -> bool {
    case.up_stage > 0 || case.down_stage > 0
}

impl Met {
    /// A day with its answer.
    pub fn new(case: &Case, answer: &Schedule) -> Met {
        let changes = if answer.number == 0 { changes(case, &answer.list) } else { Vec::new() };
        Met { case: *case, answer: answer.clone(), changes }
    }

    /// Whether a list was found.
    pub fn is_found(&self) -> bool {
        self.answer.number == 0
    }

    /// Whether the minimum up time, and the minimum down time, is above 8 hours.
    pub fn locks(&self, up: bool, down: bool) -> bool {
        (self.case.min_up > SHORT_TIME, self.case.min_down > SHORT_TIME) == (up, down)
    }

    /// The minimum time that a change keeps.
    fn time(&self, change: &Change) -> usize {
        let time = if change.is_start { self.case.min_down } else { self.case.min_up };
        time.into()
    }

    /// Whether a change comes as soon as it may, by a minimum time above 8 hours.
    pub fn is_just_in_time(&self, change: &Change) -> bool {
        let time = self.time(change);
        change.hours == time && time > usize::from(SHORT_TIME)
    }

    /// Whether a stop of the best list, or a start, comes as soon as it may and is such.
    fn some_stop(&self, test: fn(&Case, &Change) -> bool) -> bool {
        let is_such = |stop: &Change| !stop.is_start && self.is_just_in_time(stop) && test(&self.case, stop);
        self.changes.iter().any(is_such)
    }
    fn some_start(&self, test: fn(&Case, &Change) -> bool) -> bool {
        let is_such =
            |start: &Change| start.is_start && self.is_just_in_time(start) && test(&self.case, start);
        self.changes.iter().any(is_such)
    }

    /// Whether the best list ends with a run, at the minimum output or above, that was started in the day and
    /// is so many hours shorter than a minimum up time above 8 hours.
    fn runs_to_t(&self, hours: usize) -> bool {
        let time = usize::from(self.case.min_up);
        let is_such = |start: &Change| start.is_start && self.case.t + 1 - start.hour + hours == time;
        self.case.min_up > SHORT_TIME && self.changes.last().is_some_and(is_such)
    }

    /// Whether the unit opens on-line, or off-line, and a minimum time above 8 hours is not over by the end
    /// of hour k, so that it could not change in the hour after it.
    fn is_locked_to(&self, k: usize, on_line: bool) -> bool {
        let time = if on_line { self.case.min_up } else { self.case.min_down };
        let is_such = (self.case.p0 > 0) == on_line && self.case.down_stage == 0;
        is_such && time > SHORT_TIME && usize::from(self.case.h) + k < usize::from(time)
    }

    /// Whether there is no list, and there would be one with minimum times of an hour.
    fn is_without_list_by_time_alone(&self) -> bool {
        let freed = Case { min_up: 1, min_down: 1, ..self.case };
        self.answer.number == 11 && best_list(&freed).is_some()
    }

    /// Whether the stop that the day opens in comes before a minimum up time above 8 hours.
    fn is_stopped_early(&self) -> bool {
        let hours = usize::from(self.case.h) + self.case.dd - usize::from(self.case.down_stage);
        let time = self.case.min_up;
        self.case.down_stage > 0 && time > SHORT_TIME && hours < usize::from(time)
    }
}
