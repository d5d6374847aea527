//! What a list leaves for the next day (request F-5): the output, the hours in state and the stages that the day after
//! it opens with.

use crate::case::Case;
use crate::refusals::HOURS_IN_STATE;
use crate::rules::closing;

/// The state of a unit before hour 1.
#[derive(Clone, Copy, Debug, PartialEq, Eq)]
pub struct Opening {
    pub p0: u16,
    pub h: u16,
    pub up_stage: u8,
    pub down_stage: u8,
}

impl Opening {
    /// The case with this state in place of its own.
    pub fn set(self, case: &Case) -> Case {
        let Opening { p0, h, up_stage, down_stage } = self;
        Case { p0, h, up_stage, down_stage, ..*case }
    }
}

/// The state that a list of T outputs leaves that keeps every rule.
pub fn left(case: &Case, list: &[u16]) -> Opening {
    Opening {
        p0: list[case.t - 1],
        h: hours_in_state(case, list),
        up_stage: up_stage(case, list),
        down_stage: closing(case, list).unwrap_or(0) as u8,
    }
}

/// Whether the unit is on-line at the end of hour k.
fn on_line(case: &Case, list: &[u16], k: usize) -> bool {
    match k {
        0 => case.p0 > 0,
        _ => list[k - 1] > 0,
    }
}

/// Hours since the latest start or stop of the day, its own hour included; without one, h and the hours of the day. At
/// most 10,000.
fn hours_in_state(case: &Case, list: &[u16]) -> u16 {
    let changes = |&k: &usize| on_line(case, list, k) != on_line(case, list, k - 1);
    let hours = match (1..=case.t).rev().find(changes) {
        Some(change) => case.t - change + 1,
        None => usize::from(case.h) + case.t,
    };
    hours.min(HOURS_IN_STATE.into()) as u16
}

/// The stage that the latest start has reached at hour T, one before the day included; 0 from stage UD on.
fn up_stage(case: &Case, list: &[u16]) -> u8 {
    let starts = |&k: &usize| on_line(case, list, k) && !on_line(case, list, k - 1);
    let opening = usize::from(case.up_stage);
    let reached = match (1..=case.t).rev().find(starts) {
        Some(start) => case.t - start + 1,
        None if opening > 0 => case.t + opening,
        None => 0,
    };
    if reached < case.ud {
        reached as u8
    } else {
        0
    }
}
