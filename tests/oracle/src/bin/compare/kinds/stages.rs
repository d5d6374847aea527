//! The kinds of days that are searched, by the start or the stop that they open in and by the stop that the best list
//! closes in (request F-5).

use super::{kind, Kind};
use oracle::answers::Schedule;
use oracle::case::{Case, ON_LINE};
use oracle::opening::{left, Opening};

/// A day that was searched, its answer, and what the best list leaves.
pub struct Met {
    case: Case,
    answer: Schedule,
    left: Option<Opening>,
}

/// All kinds.
pub const KINDS: [Kind<Met>; 34] = [
    kind("from stage 1 of a start", |met| met.starts_from(1)),
    kind("stage 2", |met| met.starts_from(2)),
    kind("stage 3", |met| met.starts_from(3)),
    kind("stage 4", |met| met.starts_from(4)),
    kind("stage 5", |met| met.starts_from(5)),
    kind("stage 6", |met| met.starts_from(6)),
    kind("stage 7", |met| met.starts_from(7)),
    kind("from stage 2 of a stop", |met| met.stops_from(2)),
    kind("stage 3 of a stop", |met| met.stops_from(3)),
    kind("stage 4 of a stop", |met| met.stops_from(4)),
    kind("stage 5 of a stop", |met| met.stops_from(5)),
    kind("stage 6 of a stop", |met| met.stops_from(6)),
    kind("stage 7 of a stop", |met| met.stops_from(7)),
    kind("stage 8 of a stop", |met| met.stops_from(8)),
    kind("to PD(2)", |met| met.closing() == 2),
    kind("to PD(3)", |met| met.closing() == 3),
    kind("to PD(4)", |met| met.closing() == 4),
    kind("to PD(5)", |met| met.closing() == 5),
    kind("to PD(6)", |met| met.closing() == 6),
    kind("to PD(7)", |met| met.closing() == 7),
    kind("to PD(8)", |met| met.closing() == 8),
    kind("in a sequence from the start or to the end", |met| met.is_inside()),
    kind("to PD(i) = PU(j)", |met| met.closing() > 0 && met.is_output(&met.case.pu[..met.case.ud - 1])),
    kind("to PU(j) = PD(i)", |met| met.starting() > 0 && met.is_output(&met.case.pd[1..met.case.dd])),
    kind("inside one start", |met| {
        met.starts() && usize::from(met.case.up_stage) + met.case.t == met.starting()
    }),
    kind("inside one stop", |met| {
        met.stops() && usize::from(met.case.down_stage) + met.case.t == met.closing()
    }),
    kind("from a start to a stop", |met| met.starts() && met.closing() > 0),
    kind("from a start to a start", |met| met.starts() && met.is_off_line() && met.starting() > 0),
    kind("from a stop to a start", |met| met.stops() && met.starting() > 0),
    kind("from a stop to a stop", |met| met.stops() && met.is_off_line() && met.closing() > 0),
    kind("to a stop, ordered on-line at T", |met| {
        met.closing() > 0 && met.case.orders[met.case.t - 1] == ON_LINE
    }),
    kind("11 by an opening stop", |met| met.answer.number == 11 && met.is_stopped_early()),
    kind("11 by an order in a start", |met| met.answer.number == 11 && met.starts()),
    kind("11 by an order in a stop", |met| met.answer.number == 11 && met.stops() && !met.is_stopped_early()),
];

impl Met {
    /// A day with its answer.
    pub fn new(case: &Case, answer: &Schedule) -> Met {
        let left = (answer.number == 0).then(|| left(case, &answer.list));
        Met { case: *case, answer: answer.clone(), left }
    }

    /// Whether the day opens in a start, or in a stop.
    fn starts(&self) -> bool {
        self.case.up_stage > 0
    }
    fn stops(&self) -> bool {
        self.case.down_stage > 0
    }

    /// Whether a list was found of a day that opens at this stage.
    fn starts_from(&self, stage: u8) -> bool {
        self.left.is_some() && self.case.up_stage == stage
    }
    fn stops_from(&self, stage: u8) -> bool {
        self.left.is_some() && self.case.down_stage == stage
    }

    /// The stage of a start, and of a stop, in which the best list closes, or 0.
    fn starting(&self) -> usize {
        self.left.map_or(0, |left| left.up_stage.into())
    }
    fn closing(&self) -> usize {
        self.left.map_or(0, |left| left.down_stage.into())
    }

    /// Whether the day opens in a start or a stop, or its best list closes in a stop.
    fn is_inside(&self) -> bool {
        self.starts() || self.stops() || self.closing() > 0
    }

    /// Whether the best list ends with one of these outputs.
    fn is_output(&self, stages: &[u16]) -> bool {
        self.left.is_some_and(|left| stages.contains(&left.p0))
    }

    /// Whether an hour of the best list is off-line.
    fn is_off_line(&self) -> bool {
        self.answer.list.contains(&0)
    }

    /// Whether the stop that the day opens in comes before the minimum up time.
    fn is_stopped_early(&self) -> bool {
        let hours = usize::from(self.case.h) + self.case.dd - usize::from(self.case.down_stage);
        self.stops() && hours < usize::from(self.case.min_up)
    }
}
